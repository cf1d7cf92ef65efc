#define _GNU_SOURCE
#include "memory.h"

#include "random.h"

#include <pthread.h>
#include <signal.h>
#include <stdio.h>
#include <stdlib.h>
#include <string.h>
#include <sys/mman.h>

#define PAGE 4096
#define LISTS 12
/* More than the longest list of states has. */
#define ROOM ((size_t)288 << 20)
/* Pages beyond so many bytes go back to the system when a list gets shorter. */
#define KEPT ((size_t)4 << 20)
#define TILE ((size_t)1 << 20)

/* The last `open` bytes below `high` can be used. The page at `high` and all before the open bytes cannot be touched. */
struct region {
    uint8_t *high;
    size_t open;
};

static struct region regions[LISTS];
static struct list lists[LISTS];
static size_t n_lists;
static uint8_t *pattern;
static size_t pattern_from; /* where in the pattern the lists of this call begin */
static bool at_front;
uint8_t *stack_low, *stack_at;

static void must(bool holds, const char *what)
{
    if (!holds) {
        perror(what);
        exit(2);
    }
}

static uint8_t *reserve(size_t bytes)
{
    void *at = mmap(NULL, bytes, PROT_NONE, MAP_PRIVATE | MAP_ANONYMOUS | MAP_NORESERVE, -1, 0);
    must(at != MAP_FAILED, "mmap");
    return at;
}

static void protect(void *at, size_t bytes, int how)
{
    must(bytes == 0 || mprotect(at, bytes, how) == 0, "mprotect");
}

/* The pattern has random bytes, among them the bits of signalling NaNs. */
static void make_pattern(void)
{
    pattern = reserve(TILE);
    protect(pattern, TILE, PROT_READ | PROT_WRITE);
    random_begin(7, 7);
    for (size_t i = 0; i < TILE; i += 8) {
        uint64_t word = random_bits();
        if (one_in(2))
            word = (word >> 13) | UINT64_C(0x7FF0000000000001);
        memcpy(pattern + i, &word, 8);
    }
}

void memory_begin(void)
{
    make_pattern();
    for (size_t i = 0; i < LISTS; i++)
        regions[i].high = reserve(PAGE + ROOM + PAGE) + PAGE + ROOM;
}

void lists_begin(void)
{
    n_lists = 0;
    at_front = one_in(8);
    pattern_from = 8 * below(TILE / 8);
}

/* So many whole pages of the region can be used, and no other. */
static void open_pages(struct region *r, size_t bytes)
{
    size_t pages = (bytes + PAGE - 1) / PAGE * PAGE;
    if (pages > r->open)
        protect(r->high - pages, pages - r->open, PROT_READ | PROT_WRITE);
    if (pages < r->open) {
        protect(r->high - r->open, r->open - pages, PROT_NONE);
        if (r->open > KEPT)
            madvise(r->high - r->open, r->open - pages, MADV_DONTNEED);
    }
    r->open = pages;
}

/* What the pattern has for a place of a region, and for how many bytes from there on, at most `bytes`. Each region has other bytes. */
static const uint8_t *pattern_at(const struct region *r, size_t place, size_t *bytes)
{
    size_t at = (pattern_from + PAGE * (size_t)(r - regions) + place) % TILE;
    if (*bytes > TILE - at)
        *bytes = TILE - at;
    return pattern + at;
}

static void fill(const struct region *r)
{
    for (size_t done = 0; done < r->open;) {
        size_t bytes = r->open - done;
        const uint8_t *from = pattern_at(r, done, &bytes);
        memcpy(r->high - r->open + done, from, bytes);
        done += bytes;
    }
}

/* Whether the bytes of a region from one place to another hold the pattern. */
static bool holds_pattern(const struct region *r, size_t from, size_t to)
{
    while (from < to) {
        size_t bytes = to - from;
        const uint8_t *wanted = pattern_at(r, from, &bytes);
        if (memcmp(r->high - r->open + from, wanted, bytes) != 0)
            return false;
        from += bytes;
    }
    return true;
}

/* A list ends at the page behind its region; in one call of eight it begins at the page before. */
static struct list *make_list(size_t len, size_t size)
{
    if (n_lists == LISTS || len > ROOM / size) {
        fprintf(stderr, "damage: no room for a list\n");
        exit(2);
    }
    struct region *r = &regions[n_lists];
    struct list *l = &lists[n_lists++];
    open_pages(r, len * size);
    *l = (struct list){.at = at_front ? r->high - r->open : r->high - len * size, .len = len, .size = size};
    fill(r);
    if (len == 0 && one_in(4))
        l->at = NULL;
    return l;
}

struct list *give(size_t len, size_t size)
{
    return make_list(len, size);
}

struct list *lend(size_t len, size_t size, size_t result)
{
    struct list *l = make_list(len, size);
    l->lent = true;
    l->result = result < len ? result : len;
    return l;
}

void lists_close(void)
{
    for (size_t i = 0; i < n_lists; i++)
        if (!lists[i].lent)
            protect(regions[i].high - regions[i].open, regions[i].open, lists[i].hidden ? PROT_NONE : PROT_READ);
}

void lists_open(void)
{
    for (size_t i = 0; i < n_lists; i++)
        if (!lists[i].lent)
            protect(regions[i].high - regions[i].open, regions[i].open, PROT_READ | PROT_WRITE);
}

int changed_list(unsigned refusal)
{
    for (size_t i = 0; i < n_lists; i++) {
        const struct list *l = &lists[i];
        if (!l->lent || l->len == 0)
            continue;
        size_t begin = (size_t)((uint8_t *)l->at - (regions[i].high - regions[i].open));
        size_t end = begin + (refusal == 17 ? l->found : refusal ? 0 : l->result) * l->size;
        if (!holds_pattern(&regions[i], 0, begin) || !holds_pattern(&regions[i], end, regions[i].open))
            return (int)i + 1;
    }
    return 0;
}

int list_beside(const void *address)
{
    const uint8_t *at = address;
    if (stack_low && at >= stack_low - PAGE && at < stack_low)
        return -1;
    for (size_t i = 0; i < n_lists; i++)
        if (at >= regions[i].high - ROOM - PAGE && at < regions[i].high + PAGE)
            return (int)i + 1;
    return 0;
}

static void (*to_run)(void);

static void *thread(void *nothing)
{
    static uint8_t for_signals[64 * 1024];
    stack_t signals = {.ss_sp = for_signals, .ss_size = sizeof for_signals};
    must(sigaltstack(&signals, NULL) == 0, "sigaltstack");
    to_run();
    return nothing;
}

void on_small_stack(void (*run)(void))
{
    pthread_attr_t how;
    pthread_t id;
    to_run = run;
    stack_low = reserve(PAGE + STACK_BYTES) + PAGE;
    protect(stack_low, STACK_BYTES, PROT_READ | PROT_WRITE);
    must(pthread_attr_init(&how) == 0 && pthread_attr_setstack(&how, stack_low, STACK_BYTES) == 0, "pthread_attr_setstack");
    must(pthread_create(&id, &how, thread, NULL) == 0, "pthread_create");
    must(pthread_join(id, NULL) == 0, "pthread_join");
}
