/* The lists of a call, each between two pages that cannot be touched, and the stack that the calls run on. */
#ifndef MEMORY_H
#define MEMORY_H

#include <stdbool.h>
#include <stddef.h>
#include <stdint.h>

/* All calls run on a thread with this stack, the thread's own data included. */
#define STACK_BYTES (256 * 1024)
#define PAINT UINT64_C(0x5AA55AA5C33CC33C)

struct list {
    void *at;      /* what the call gets */
    size_t len;    /* in entries */
    size_t size;   /* bytes an entry */
    bool lent;     /* the call may write */
    bool hidden;   /* the call must not even read */
    size_t result; /* how many entries a success may change */
    size_t found;  /* how many entries the refusal 17 may change */
};

void memory_begin(void);
/* Forgets the lists of the call before. */
void lists_begin(void);
/* A list to read, to be filled in by the caller before the call. */
struct list *give(size_t len, size_t size);
/* A list to write, filled with the pattern. */
struct list *lend(size_t len, size_t size, size_t result);
/* From here on to lists_open, no list that is given can be written. */
void lists_close(void);
void lists_open(void);
/* The number, from 1, of the first lent list that is not as it was: at a refusal all of it, or at 17 all but what was found; at 0, a success, all
   but its result. 0: each is. */
int changed_list(unsigned refusal);
/* Which list a bad address lies next to, from 1; 0: none of them, -1: the stack. */
int list_beside(const void *address);
/* Runs the function on a thread with STACK_BYTES of stack below which nothing can be touched. */
void on_small_stack(void (*run)(void));

extern uint8_t *stack_low, *stack_at;

/* Fills the stack below the function that it stands in. */
static inline __attribute__((always_inline)) void paint_stack(void)
{
    uint8_t *to;
    __asm__ volatile("mov %%rsp, %0" : "=r"(to));
    stack_at = to;
    uint64_t words = (uint64_t)(stack_at - stack_low) / 8;
    to = stack_low;
    __asm__ volatile("rep stosq" : "+D"(to), "+c"(words) : "a"(PAINT) : "memory");
}

/* How many bytes below the same function have been touched since. */
static inline __attribute__((always_inline)) size_t stack_touched(void)
{
    const volatile uint64_t *low = (const volatile uint64_t *)stack_low;
    while ((uint8_t *)low < stack_at && *low == PAINT)
        low++;
    return (size_t)(stack_at - (uint8_t *)low);
}

#endif
