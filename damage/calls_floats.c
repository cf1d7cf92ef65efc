/* The calls with floats: couplings, matrices, products, expectations. */
#include "calls.h"

#include "choices.h"
#include "judging.h"
#include "random.h"
#include "sheets.h"
#include "zibrotka.h"

#include <math.h>

/* ---- couplings and weights */

struct coupling {
    double g_squared, electric, magnetic;
    bool wrong;
};

static struct coupling factors(bool u1, double g)
{
    return u1 ? (struct coupling){g, g / 2.0, -1.0 / g, false} : (struct coupling){g, (3.0 * g) / 8.0, -0.5 / g, false};
}

/* A float from 2^-32 to 2^32, often at an end, or damaged one that is not. */
static double some_g_squared(bool *wrong)
{
    const double least = 1.0 / RANGE;
    *wrong = faulty();
    if (!*wrong) {
        const int exponent = (int)below(63) - 32;
        const double good[] = {least, nextafter(least, 1.0), RANGE, nextafter(RANGE, 1.0), 1.0, 3.0, ldexp(1.0 + (double)below(1000) / 1000.0, exponent)};
        return good[below(7)];
    }
    const double bad[] = {nextafter(least, 0.0), 0.0, -0.0, -1.0, of_bits(1), -least};
    return one_in(3) ? bad_float(RANGE) : bad[below(6)];
}

static struct coupling some_coupling(bool u1)
{
    bool wrong;
    double g = some_g_squared(&wrong);
    struct coupling k = factors(u1, g);
    k.wrong = wrong;
    if (!faulty())
        return k;
    double *factor = one_in(2) ? &k.electric : &k.magnetic;
    switch (below(5)) {
    case 0:
        *factor = nextafter(*factor, one_in(2) ? INFINITY : -INFINITY);
        break;
    case 1:
        *factor = bad_float(RANGE);
        break;
    case 2:
        *factor = -*factor;
        break;
    case 3:
        *factor = 0.0;
        break;
    default:
        k = factors(!u1, g);
    }
    struct coupling right = factors(u1, g);
    k.wrong = wrong || !(k.electric == right.electric && k.magnetic == right.magnetic);
    return k;
}

static void call_params(bool u1)
{
    bool wrong;
    double g = some_g_squared(&wrong);
    struct list *params = lend(3, 8, 3);
    if (u1)
        CALL(zibrotka_u1_params(g, params->at));
    else
        CALL(zibrotka_su2_params(g, params->at));
    expect(wrong ? 14 : 0, 0, 0);
    struct coupling k = factors(u1, g);
    const double *p = params->at;
    check(answer < 0 || (p[0] == g && p[1] == k.electric && p[2] == k.magnetic), "not the factors");
}

void call_u1_params(void)
{
    call_params(true);
}

void call_su2_params(void)
{
    call_params(false);
}

struct weights {
    bool given, wrong_length, wrong_float;
    struct list *list;
};

/* Weights that are given, or absent beside a list of anything, which may not be readable at all. */
static struct weights some_weights(void)
{
    struct weights w = {.given = one_in(2)};
    w.list = give(w.given ? length(s.c.triangles) : below(400), 8);
    bool right = fill_floats(w.list, RANGE);
    w.list->hidden = !w.given;
    w.wrong_length = w.given && w.list->len != s.c.triangles;
    w.wrong_float = w.given && !right;
    return w;
}

/* 12 and 14 of coupling, weights and a vector, after the refusals before them. */
static unsigned judge_terms(struct coupling k, struct weights w, bool vector_length, bool vector_floats)
{
    unsigned refusal = or_else(s.refusal, w.wrong_length || vector_length, 12);
    return or_else(refusal, k.wrong || w.wrong_float || vector_floats, 14);
}

/* ---- matrices */

static void check_basis(bool u1, const struct list *states)
{
    if (u1)
        check_states(states);
    else
        check_masks(states);
}

#define TERMS k.g_squared, k.electric, k.magnetic, w.given, w.list->at, w.list->len

static void call_dense(bool u1)
{
    make_basis(u1, 400);
    struct list *sheet = give_sheet();
    struct coupling k = some_coupling(u1);
    struct weights w = some_weights();
    uint64_t square = s.n * s.n, basis = u1 ? state_entries() : s.n;
    struct list *states = u1 ? lend_states() : lend_masks(), *result = lend(room(square, 8), 8, square);
    if (u1)
        CALL(zibrotka_build_hamiltonian(sheet->at, sheet->len, TERMS, states->at, states->len, result->at, result->len));
    else
        CALL(zibrotka_build_su2_hamiltonian(sheet->at, sheet->len, TERMS, states->at, states->len, result->at, result->len));
    expect(or_else(judge_terms(k, w, false, false), states->len < basis || result->len < square, 15), s.n, s.n);
    check_basis(u1, states);
}

void call_build_hamiltonian(void)
{
    call_dense(true);
}

void call_build_su2_hamiltonian(void)
{
    call_dense(false);
}

static uint64_t count_entries(bool u1)
{
    if (s.refusal)
        return 1 + below(40);
    if (u1)
        return s.listed ? count_row_entries(&s.c, side, s.n) : (uint64_t)zibrotka_count_entries(s.bytes, s.len);
    return (s.c.triangles + 1) * s.n - 1;
}

static void call_rows(bool u1)
{
    make_basis(u1, 2000);
    struct list *sheet = give_sheet();
    struct coupling k = some_coupling(u1);
    struct weights w = some_weights();
    uint64_t entries = count_entries(u1), basis = u1 ? state_entries() : s.n;
    struct list *states = u1 ? lend_states() : lend_masks(), *starts = lend(room(s.n + 1, 4), 4, s.n + 1);
    struct list *columns = lend(room(entries, 4), 4, entries), *values = lend(room(entries, 8), 8, entries);
    if (u1)
        CALL(zibrotka_build_csr(sheet->at, sheet->len, TERMS, states->at, states->len, starts->at, starts->len, columns->at, columns->len, values->at,
                                values->len));
    else
        CALL(zibrotka_build_csr_su2(sheet->at, sheet->len, TERMS, states->at, states->len, starts->at, starts->len, columns->at, columns->len,
                                    values->at, values->len));
    bool few = states->len < basis || starts->len < s.n + 1 || columns->len < entries || values->len < entries;
    expect(or_else(judge_terms(k, w, false, false), few, 15), entries, entries);
    check_basis(u1, states);
    check(answer < 0 || ((uint32_t *)starts->at)[s.n] == entries, "the last start is not the number of entries");
    for (size_t i = 0; i < entries && answer > 0; i++)
        check(((uint32_t *)columns->at)[i] < s.n, "a column that is not there");
}

void call_build_csr(void)
{
    call_rows(true);
}

void call_build_csr_su2(void)
{
    call_rows(false);
}

void call_count_entries(void)
{
    make_basis(true, 3000);
    struct list *sheet = give_sheet();
    uint64_t entries = count_entries(true);
    CALL(zibrotka_count_entries(sheet->at, sheet->len));
    expect(s.refusal, entries, entries);
    check(s.refusal || entries <= (2 * s.c.triangles + 1) * s.n - 1, "more entries than there can be");
}

void call_su2_count_entries(void)
{
    make_basis(false, 4096);
    struct list *sheet = give_sheet();
    uint64_t entries = count_entries(false);
    CALL(zibrotka_su2_count_entries(sheet->at, sheet->len));
    expect(s.refusal, entries, entries);
}

/* ---- vectors */

/* A vector of n amplitudes, right or damaged. */
static struct list *give_vector(bool *right)
{
    struct list *l = give(length(s.n), 8);
    *right = fill_floats(l, RANGE);
    return l;
}

static void call_product(bool u1)
{
    bool right;
    make_basis(u1, u1 ? 3000 : 4096);
    struct list *sheet = give_sheet();
    struct coupling k = some_coupling(u1);
    struct weights w = some_weights();
    struct list *v = give_vector(&right), *states = u1 ? lend_states() : lend_masks(), *result = lend(room(s.n, 8), 8, s.n);
    if (u1)
        CALL(zibrotka_hamiltonian_matvec(sheet->at, sheet->len, TERMS, v->at, v->len, states->at, states->len, result->at, result->len));
    else
        CALL(zibrotka_su2_hamiltonian_matvec(sheet->at, sheet->len, TERMS, v->at, v->len, states->at, states->len, result->at, result->len));
    bool few = states->len < (u1 ? state_entries() : s.n) || result->len < s.n;
    expect(or_else(judge_terms(k, w, v->len != s.n, !right), few, 15), s.n, s.n);
    check_basis(u1, states);
}

void call_hamiltonian_matvec(void)
{
    call_product(true);
}

void call_su2_hamiltonian_matvec(void)
{
    call_product(false);
}

void call_electric_field_sq(void)
{
    bool right;
    make_basis(true, 3000);
    struct list *sheet = give_sheet(), *v = give_vector(&right), *states = lend_states(), *result = lend(room(s.c.edges, 8), 8, s.c.edges);
    CALL(zibrotka_electric_field_sq(sheet->at, sheet->len, v->at, v->len, states->at, states->len, result->at, result->len));
    unsigned refusal = or_else(or_else(s.refusal, v->len != s.n, 12), !right, 14);
    expect(or_else(refusal, states->len < state_entries() || result->len < s.c.edges, 15), s.c.edges, s.c.edges);
    check_states(states);
}

/* The edges of a path, right or damaged; long ones for small bases only. Whether each is there. */
static struct list *give_path(bool *right)
{
    struct list *l = give(below(s.c.edges == 0 ? 1 : s.n > 5000 ? 8 : one_in(8) ? 2000 : 12), 1);
    uint8_t *edge = l->at;
    size_t place = below(l->len);
    for (size_t i = 0; i < l->len; i++)
        edge[i] = (uint8_t)below(s.c.edges);
    *right = l->len == 0 || !faulty();
    if (!*right) {
        const uint8_t past[] = {(uint8_t)s.c.edges, (uint8_t)(s.c.edges + 1), 63, 64, 127, 128, 255};
        edge[place] = past[below(7)];
        *right = true;
        for (size_t i = 0; i < l->len; i++)
            *right = *right && edge[i] < s.c.edges;
    }
    return l;
}

void call_wilson_loop(void)
{
    static const int8_t odd[] = {0, 2, -2, 127, -128};
    bool right, right_path, right_directions;
    make_basis(true, 3000);
    struct list *sheet = give_sheet(), *v = give_vector(&right), *edges = give_path(&right_path), *directions = give(length(edges->len), 1);
    for (size_t i = 0; i < directions->len; i++)
        ((int8_t *)directions->at)[i] = one_in(2) ? 1 : -1;
    size_t place = below(directions->len);
    right_directions = directions->len == 0 || !faulty();
    if (!right_directions)
        ((int8_t *)directions->at)[place] = odd[below(5)];
    struct list *states = lend_states(), *expectation = lend(1, 8, 1);
    CALL(zibrotka_wilson_loop(sheet->at, sheet->len, v->at, v->len, edges->at, edges->len, directions->at, directions->len, states->at, states->len,
                              expectation->at));
    unsigned refusal = or_else(s.refusal, v->len != s.n || directions->len != edges->len, 12);
    refusal = or_else(or_else(refusal, !right_path || !right_directions, 13), !right, 14);
    expect(or_else(refusal, states->len < state_entries(), 15), 0, 0);
    check_states(states);
}

static void su2_expectation(bool by_passes)
{
    bool right, right_path;
    make_basis(false, 4096);
    struct list *sheet = give_sheet(), *v = give_vector(&right), *path = give_path(&right_path), *states = lend_masks();
    struct list *expectation = lend(1, 8, 1);
    if (by_passes)
        CALL(zibrotka_su2_wilson_passes(sheet->at, sheet->len, v->at, v->len, path->at, path->len, states->at, states->len, expectation->at));
    else
        CALL(zibrotka_su2_wilson_loop(sheet->at, sheet->len, v->at, v->len, path->at, path->len, states->at, states->len, expectation->at));
    unsigned refusal = or_else(or_else(s.refusal, v->len != s.n, 12), !right_path, 13);
    expect(or_else(or_else(refusal, !right, 14), states->len < s.n, 15), 0, 0);
    check_masks(states);
}

void call_su2_wilson_loop(void)
{
    su2_expectation(false);
}

void call_su2_wilson_passes(void)
{
    su2_expectation(true);
}

/* ---- row lists of a caller's own */

static uint32_t some_word(uint32_t near)
{
    const uint32_t words[] = {near, near + 1, 0, near - 1, UINT32_C(1) << 31, UINT32_MAX, (uint32_t)random_bits()};
    return words[below(7)];
}

static bool starts_right(const struct list *starts, size_t entries)
{
    const uint32_t *start = starts->at;
    for (size_t i = 0; i + 1 < starts->len; i++)
        if (start[i] > start[i + 1])
            return false;
    return start[0] == 0 && start[starts->len - 1] == entries;
}

static bool columns_right(const struct list *columns, size_t rows)
{
    for (size_t i = 0; i < columns->len; i++)
        if (((const uint32_t *)columns->at)[i] >= rows)
            return false;
    return true;
}

void call_matvec(void)
{
    size_t rows = below(one_in(20) ? 20000 : 60), entries = 0, longest = below(8);
    struct list *starts = give(length(rows + 1), 4);
    uint32_t *start = starts->at;
    for (size_t i = 0; i < starts->len; i++) {
        start[i] = (uint32_t)entries;
        entries += i < rows ? below(longest + 1) : 0;
    }
    struct list *columns = give(length(entries), 4), *values = give(faulty() ? length(entries) : columns->len, 8), *v = give(length(rows), 8);
    for (size_t i = 0; i < columns->len; i++)
        ((uint32_t *)columns->at)[i] = (uint32_t)below(rows);
    size_t at_start = one_in(2) ? starts->len - 1 : below(starts->len), at_column = below(columns->len);
    if (faulty() && starts->len > 0)
        start[at_start] = some_word((uint32_t)entries);
    if (faulty() && columns->len > 0)
        ((uint32_t *)columns->at)[at_column] = some_word((uint32_t)rows);
    bool right = fill_floats(values, ROW_RANGE);
    right = fill_floats(v, RANGE) && right;
    struct list *result = lend(room(v->len, 8), 8, v->len);
    CALL(zibrotka_matvec(starts->at, starts->len, columns->at, columns->len, values->at, values->len, v->at, v->len, result->at, result->len));
    unsigned refusal = or_else(0, starts->len != v->len + 1 || columns->len != values->len, 12);
    if (!refusal)
        refusal = or_else(0, !starts_right(starts, columns->len) || !columns_right(columns, v->len), 13);
    expect(or_else(or_else(refusal, !right, 14), result->len < v->len, 15), 0, 0);
}
