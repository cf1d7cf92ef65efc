#include "sheets.h"

#include "choices.h"
#include "random.h"
#include "zibrotka.h"

#include <string.h>

struct sheet s;
int32_t side[SIDE_ENTRIES];

/* How many candidates: mostly few, now and then all that are allowed. */
static uint64_t candidates(uint64_t mostly)
{
    most_bytes = (size_t)4 << 20;
    if (one_in(500)) {
        most_bytes = (size_t)64 << 20;
        return MOST_CANDIDATES;
    }
    return one_in(20) ? mostly * 10 : mostly;
}

/* What lists get for lengths where a sheet says nothing. */
static void forget_counts(void)
{
    unsigned some = (unsigned)below(8);
    s.c = (struct complex){.vertices = 1 + some, .edges = some, .triangles = some / 2};
    s.t = (struct tree){.free_edges = some, .steps = 3 * some};
    s.n = 1 + below(20);
}

void make_sheet(bool u1, uint64_t mostly)
{
    make_complex(&s.c, u1, candidates(mostly));
    s.len = write_sheet(&s.c, s.bytes);
    s.used = true;
    s.listed = false;
    if (faulty())
        s.len = damage_bytes(s.bytes, s.len);
    s.refusal = judge_sheet(s.bytes, s.len, &s.c);
    if (s.refusal)
        forget_counts();
    else
        find_tree(&s.c, &s.t);
}

void find_states(void)
{
    s.listed = power(2 * s.c.lambda + 1, s.t.free_edges) <= SIDE_CANDIDATES;
    s.n = s.listed ? list_states(&s.c, &s.t, side, SIDE_ENTRIES) : (uint64_t)zibrotka_count_states(s.bytes, s.len);
}

void make_basis(bool u1, uint64_t mostly)
{
    make_sheet(u1, mostly);
    if (s.refusal)
        return;
    if (power(u1 ? 2 * s.c.lambda + 1 : 2, s.t.free_edges) > MOST_CANDIDATES) {
        s.refusal = 10;
        s.n = 1 + below(20);
    } else if (u1) {
        find_states();
    } else {
        s.n = power(2, s.t.free_edges);
    }
}

void make_longest_basis(void)
{
    make_longest(&s.c);
    s.len = write_sheet(&s.c, s.bytes);
    s.used = true;
    s.refusal = judge_sheet(s.bytes, s.len, &s.c);
    find_tree(&s.c, &s.t);
    find_states();
    most_bytes = (size_t)280 << 20;
}

struct list *give_sheet(void)
{
    struct list *l = give(s.len, 1);
    if (s.len > 0)
        memcpy(l->at, s.bytes, s.len);
    return l;
}

uint64_t state_entries(void)
{
    return s.n * s.c.edges;
}

struct list *lend_states(void)
{
    return lend(room(state_entries(), 4), 4, state_entries());
}

struct list *lend_masks(void)
{
    return lend(room(s.n, 8), 8, s.n);
}
