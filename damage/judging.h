/* What a call answers, and whether it is what it must be. */
#ifndef JUDGING_H
#define JUDGING_H

#include "calls.h"
#include "memory.h"

#include <unistd.h>

enum { LIMIT_SECONDS = 60 };

/* The call that is being made, and its answer. */
extern struct call *current;
extern int64_t answer;

void judging_begin(struct call *call, uint64_t seed, uint64_t number);

/* Makes the call; what it touches of the stack is measured. */
#define CALL(expression) \
    do { \
        lists_close(); \
        alarm(LIMIT_SECONDS); \
        paint_stack(); \
        answer = (expression); \
        size_t touched = stack_touched(); \
        if (touched > current->deepest) \
            current->deepest = touched; \
        lists_open(); \
    } while (0)

void check(bool holds, const char *what);
/* The call must refuse with this number, or for 0 answer a number from low to high, and leave alone what it must not change. */
void expect(unsigned refusal, uint64_t low, uint64_t high);
/* A refusal that was found before stands; else this one, if it holds. */
unsigned or_else(unsigned before, bool holds, unsigned number);
/* After a success the list must hold the states, or the even sets. */
void check_states(const struct list *states);
void check_masks(const struct list *states);

#endif
