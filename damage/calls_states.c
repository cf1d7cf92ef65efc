/* The calls that list, place and shift states. */
#include "calls.h"

#include "choices.h"
#include "judging.h"
#include "random.h"
#include "sheets.h"
#include "zibrotka.h"

#include <string.h>

/* ---- U(1): states */

/* More on the edges of a loop, which leaves lawful values lawful and may lead out of the band; not where it does not fit. */
static void add_loop(int32_t *value)
{
    const int64_t lambda = s.c.lambda, times[] = {1, -1, lambda, lambda + 1, -2 * lambda - 1, 1 << 30, INT32_MAX, INT32_MIN};
    const int64_t much = times[below(8)];
    const int8_t *loop = s.t.cycle[below(s.t.free_edges)];
    for (size_t e = 0; e < s.c.edges; e++)
        if (value[e] + much * loop[e] < INT32_MIN || value[e] + much * loop[e] > INT32_MAX)
            return;
    for (size_t e = 0; e < s.c.edges; e++)
        value[e] = (int32_t)(value[e] + much * loop[e]);
}

/* Values for the edges: a state of the basis if there is a list, zeros, or anything; then perhaps more on a loop, and perhaps one of them off. */
static struct list *give_configuration(void)
{
    static const int32_t odd[] = {1, -1, 1000, -1001, INT32_MAX, INT32_MIN}, ends[] = {0, INT32_MAX, INT32_MIN};
    struct list *l = give(length(s.c.edges), 4);
    int32_t *value = l->at;
    size_t state = s.listed ? below(s.n) : 0, place = below(l->len);
    bool any = one_in(8), at_ends = any && one_in(3);
    for (size_t e = 0; e < l->len; e++)
        value[e] = at_ends ? ends[below(3)] : any ? (int32_t)random_bits() : s.listed && e < s.c.edges ? side[state * s.c.edges + e] : 0;
    if (one_in(4) && !s.refusal && l->len == s.c.edges && s.t.free_edges > 0)
        add_loop(value);
    if (faulty() && l->len > 0)
        value[place] = one_in(4) ? (int32_t)random_bits() : odd[below(6)];
    return l;
}

static bool within(int64_t value)
{
    return value >= -(int64_t)s.c.lambda && value <= (int64_t)s.c.lambda;
}

/* Whether the values are one for each edge, in the band and lawful. */
static bool is_state(const int32_t *value, size_t len)
{
    if (len != s.c.edges)
        return false;
    for (size_t e = 0; e < len; e++)
        if (!within(value[e]))
            return false;
    return lawful(&s.c, value);
}

/* The values that the list of states holds at the place that was answered. */
static void check_place(const struct list *states, const int32_t *value)
{
    if (answer >= 0 && s.c.edges > 0)
        check(memcmp((int32_t *)states->at + (uint64_t)answer * s.c.edges, value, 4 * s.c.edges) == 0, "another state stands at the place");
    check_states(states);
}

/* What is wrong with values that are one for each edge, and the numbers that are lent for it. */
struct finding {
    bool broken, outside;
    uint64_t vertex, edge;
    int64_t excess;
    struct list *at_vertex, *at_excess, *at_edge;
};

static void find_wrong(struct finding *f, const int32_t *value)
{
    f->broken = find_broken(&s.c, value, &f->vertex, &f->excess);
    for (size_t e = s.c.edges; e > 0; e--)
        if (!within(value[e - 1])) {
            f->outside = true;
            f->edge = e - 1;
        }
}

static struct finding lend_finding(void)
{
    struct finding f = {0};
    f.at_vertex = lend(1, 8, 0);
    f.at_excess = lend(1, 8, 0);
    f.at_edge = lend(1, 8, 0);
    return f;
}

/* Of a call that must refuse with this number, or for 0 answer: what it may change of the numbers, and then what it must have told. */
static void expect_finding(struct finding *f, unsigned refusal, uint64_t high)
{
    f->at_vertex->found = f->broken;
    f->at_excess->found = 1;
    f->at_edge->found = !f->broken;
    expect(refusal, 0, high);
    if (answer != -17)
        return;
    check(!f->broken || *(uint64_t *)f->at_vertex->at == f->vertex, "the vertex is not the lowest that breaks the law");
    check(*(int64_t *)f->at_excess->at == (f->broken ? f->excess : 0), "not the excess");
    check(f->broken || (f->outside && *(uint64_t *)f->at_edge->at == f->edge), "the edge is not the lowest outside the band");
}

static void call_law(bool finding)
{
    make_sheet(true, 1000);
    if (!s.refusal && power(2 * s.c.lambda + 1, s.t.free_edges) <= SIDE_CANDIDATES)
        find_states();
    struct list *sheet = give_sheet(), *values = give_configuration();
    struct finding f = {0};
    unsigned refusal = or_else(s.refusal, values->len != s.c.edges, 12);
    if (!refusal)
        find_wrong(&f, values->at);
    bool right = !refusal && lawful(&s.c, values->at);
    if (!finding) {
        CALL(zibrotka_check_gauss_law(sheet->at, sheet->len, values->at, values->len));
        expect(refusal, right, right);
        return;
    }
    struct list *vertex = lend(1, 8, f.broken), *excess = lend(1, 8, f.broken);
    CALL(zibrotka_check_gauss_law_finding(sheet->at, sheet->len, values->at, values->len, vertex->at, excess->at));
    expect(refusal, right, right);
    if (answer == 0)
        check(*(uint64_t *)vertex->at == f.vertex && *(int64_t *)excess->at == f.excess, "not the lowest vertex that breaks the law with its excess");
}

void call_check_gauss_law(void)
{
    call_law(false);
}

void call_check_gauss_law_finding(void)
{
    call_law(true);
}

void call_enumerate_gauge_invariant(void)
{
    if (one_in(5000))
        make_longest_basis();
    else
        make_basis(true, 3000);
    struct list *sheet = give_sheet(), *states = lend_states();
    CALL(zibrotka_enumerate_gauge_invariant(sheet->at, sheet->len, states->at, states->len));
    expect(or_else(s.refusal, states->len < state_entries(), 15), s.n, s.n);
    check_states(states);
    for (size_t i = 0; answer > 0 && !s.listed && i < 1000; i++)
        check(s.c.edges == 0 || is_state((int32_t *)states->at + below(s.n) * s.c.edges, s.c.edges), "a listed configuration is no state");
}

void call_count_states(void)
{
    make_basis(true, 3000);
    struct list *sheet = give_sheet();
    CALL(zibrotka_count_states(sheet->at, sheet->len));
    expect(s.refusal, s.n > 1 ? s.n : 1, s.n);
}

static void call_place(bool finding)
{
    make_basis(true, 3000);
    struct list *sheet = give_sheet(), *values = give_configuration(), *states = lend_states();
    struct finding f = {0};
    if (finding) {
        f = lend_finding();
        CALL(zibrotka_config_to_index_finding(sheet->at, sheet->len, values->at, values->len, states->at, states->len, f.at_vertex->at,
                                              f.at_excess->at, f.at_edge->at));
    } else {
        CALL(zibrotka_config_to_index(sheet->at, sheet->len, values->at, values->len, states->at, states->len));
    }
    unsigned refusal = or_else(s.refusal, values->len != s.c.edges, 12);
    refusal = or_else(refusal, states->len < state_entries(), 15);
    if (!refusal)
        find_wrong(&f, values->at);
    refusal = or_else(refusal, refusal || !is_state(values->at, values->len), 17);
    if (finding)
        expect_finding(&f, refusal, s.n - 1);
    else
        expect(refusal, 0, s.n - 1);
    check_place(states, values->at);
}

void call_config_to_index(void)
{
    call_place(false);
}

void call_config_to_index_finding(void)
{
    call_place(true);
}

static void call_shift(bool finding)
{
    static int32_t shifted[MOST_EDGES];
    static const int32_t deltas[] = {0, 1, -1, 2, 1000, -2001, INT32_MAX, INT32_MIN};
    make_basis(true, 3000);
    struct list *sheet = give_sheet(), *values = give_configuration();
    uint64_t edge = number(s.c.edges);
    int32_t delta = one_in(8) ? (int32_t)random_bits() : deltas[below(8)];
    int32_t *value = values->at;
    if (edge < values->len && one_in(2) && (int64_t)value[edge] - delta >= INT32_MIN && (int64_t)value[edge] - delta <= INT32_MAX)
        value[edge] -= delta; /* so that the shift leads to what was there */
    struct list *states = lend_states(), *result = lend(room(s.c.edges, 4), 4, s.c.edges);
    struct finding f = {0};
    if (finding) {
        f = lend_finding();
        CALL(zibrotka_apply_shift_finding(sheet->at, sheet->len, values->at, values->len, edge, delta, states->at, states->len, result->at, result->len,
                                          f.at_vertex->at, f.at_excess->at, f.at_edge->at));
    } else {
        CALL(zibrotka_apply_shift(sheet->at, sheet->len, values->at, values->len, edge, delta, states->at, states->len, result->at, result->len));
    }
    unsigned refusal = or_else(s.refusal, values->len != s.c.edges, 12);
    refusal = or_else(refusal, edge >= s.c.edges, 13);
    refusal = or_else(refusal, states->len < state_entries() || result->len < s.c.edges, 15);
    if (!refusal) {
        refusal = or_else(0, !within((int64_t)value[edge] + delta), 16);
        memcpy(shifted, value, 4 * s.c.edges);
        if (!refusal) {
            shifted[edge] = (int32_t)((int64_t)value[edge] + delta);
            find_wrong(&f, shifted);
        }
        refusal = or_else(refusal, !is_state(shifted, s.c.edges), 17);
    }
    if (finding)
        expect_finding(&f, refusal, s.n - 1);
    else
        expect(refusal, 0, s.n - 1);
    check_place(states, shifted);
    check(answer < 0 || memcmp(result->at, shifted, 4 * s.c.edges) == 0, "not the shifted values");
}

void call_apply_shift(void)
{
    call_shift(false);
}

void call_apply_shift_finding(void)
{
    call_shift(true);
}

/* The state at a place of a list, shifted by a triangle. Whether it stays in the band. */
static bool shift_triangle(const int32_t *list, uint64_t state, uint64_t triangle, int32_t *shifted)
{
    unsigned edge[3];
    find_sides(&s.c, triangle, edge);
    memcpy(shifted, list + state * s.c.edges, 4 * s.c.edges);
    shifted[edge[0]]++;
    shifted[edge[1]]++;
    shifted[edge[2]]--;
    return within(shifted[edge[0]]) && within(shifted[edge[1]]) && within(shifted[edge[2]]);
}

void call_apply_triangle_shift(void)
{
    int32_t shifted[MOST_EDGES];
    make_basis(true, 3000);
    struct list *sheet = give_sheet(), *states = lend_states();
    uint64_t triangle = number(s.c.triangles), state = number(s.n);
    CALL(zibrotka_apply_triangle_shift(sheet->at, sheet->len, triangle, state, states->at, states->len));
    unsigned refusal = or_else(s.refusal, triangle >= s.c.triangles || state >= s.n, 13);
    refusal = or_else(refusal, states->len < state_entries(), 15);
    if (!refusal && s.listed)
        refusal = or_else(0, !shift_triangle(side, state, triangle, shifted), 16);
    else if (!refusal && answer == -16)
        refusal = 16; /* not known apart from the library */
    expect(refusal, 0, s.n - 1);
    if (answer >= 0) {
        check(shift_triangle(states->at, state, triangle, shifted), "a side leaves the band");
        check_place(states, shifted);
    }
}

/* ---- Z2: masks */

void call_su2_basis(void)
{
    make_basis(false, 4096);
    struct list *sheet = give_sheet(), *states = lend_masks();
    CALL(zibrotka_su2_basis(sheet->at, sheet->len, states->at, states->len));
    expect(or_else(s.refusal, states->len < s.n, 15), s.n, s.n);
    check_masks(states);
}

void call_su2_count_states(void)
{
    make_basis(false, 4096);
    struct list *sheet = give_sheet();
    CALL(zibrotka_su2_count_states(sheet->at, sheet->len));
    expect(s.refusal, s.n, s.n);
}
