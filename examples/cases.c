/*
 * The worked cases of docs/SCOPE.md that have no star, its first five traps, an edge and back in Z2, ends of ranges, and what is wrong with
 * values that are no state: each line tells what a call answers. A value below 0 is minus a refusal. cases.expected has what must be printed.
 */
#include "zibrotka.h"
#include <math.h>
#include <stdio.h>
#include <stdlib.h>
#include <string.h>

enum { ROOM = 8000000 };
static int32_t *states;
static uint64_t masks[2048];

static void told(const char *what, int64_t answer)
{
    printf("%s: %lld\n", what, (long long)answer);
}

/* A sheet of some vertices with the given edges and triangles, written without the library: bad ones too. */
static size_t sheet_of(uint8_t *sheet, size_t vertices, const uint8_t *edges, size_t n_edges, const uint8_t *triangles, size_t n_triangles,
                       size_t lambda)
{
    const size_t header[11] = {'G', 'L', 'S', 1, 0, vertices, n_edges, n_triangles % 256, n_triangles / 256, lambda % 256, lambda / 256};

    for (int i = 0; i < 11; i++)
        sheet[i] = (uint8_t)header[i];
    if (n_edges > 0)
        memcpy(sheet + 11, edges, 2 * n_edges);
    if (n_triangles > 0)
        memcpy(sheet + 11 + 2 * n_edges, triangles, 3 * n_triangles);
    return 11 + 2 * n_edges + 3 * n_triangles;
}

/* the tetrahedron without its last edge, which has two free edges, and the triangle */
static const uint8_t two_free[] = {0, 1, 0, 2, 0, 3, 1, 2, 1, 3};
static const uint8_t triangle_edges[] = {0, 1, 0, 2, 1, 2}, one_triangle[] = {0, 1, 2};

static void sizes(void)
{
    const uint8_t apart[] = {0, 1, 0, 2, 1, 2, 3, 4, 3, 5, 4, 5}, both[] = {0, 1, 2, 3, 4, 5};
    uint8_t sheet[ZIBROTKA_SHEET_BYTES], path[126];
    size_t n;

    n = sheet_of(sheet, 4, two_free, 5, NULL, 0, 511);
    told("two free edges, L 511, states", zibrotka_enumerate_gauge_invariant(sheet, n, states, ROOM));
    n = sheet_of(sheet, 4, two_free, 5, NULL, 0, 512);
    told("two free edges, L 512, states", zibrotka_enumerate_gauge_invariant(sheet, n, states, ROOM));
    told("two free edges, L 512, masks", zibrotka_su2_basis(sheet, n, masks, 2048));
    for (unsigned i = 0; i < 63; i++) {
        path[2 * i] = (uint8_t)i;
        path[2 * i + 1] = (uint8_t)(i + 1);
    }
    n = sheet_of(sheet, 64, path, 63, NULL, 0, 1000);
    told("64 vertices, a path of 63 edges, L 1000, states", zibrotka_enumerate_gauge_invariant(sheet, n, states, ROOM));
    told("64 vertices, a path of 63 edges, masks", zibrotka_su2_basis(sheet, n, masks, 2048));
    n = sheet_of(sheet, 0, NULL, 0, NULL, 0, 1);
    told("no vertex", zibrotka_count_states(sheet, n));
    n = sheet_of(sheet, 65, NULL, 0, NULL, 0, 1);
    told("65 vertices", zibrotka_count_states(sheet, n));
    n = sheet_of(sheet, 6, apart, 6, both, 2, 1);
    told("two separate triangles", zibrotka_enumerate_gauge_invariant(sheet, n, states, ROOM));
    told("two separate triangles, masks", zibrotka_su2_basis(sheet, n, masks, 2048));
    n = sheet_of(sheet, 3, triangle_edges, 3, one_triangle, 1, 1000);
    told("the triangle, L 1000", zibrotka_count_states(sheet, n));
    n = sheet_of(sheet, 3, triangle_edges, 3, one_triangle, 1, 1001);
    told("the triangle, L 1001", zibrotka_count_states(sheet, n));
}

/* 4 is told before 6: the bytes that these counts ask for are not there. */
static void counts(void)
{
    uint8_t sheet[11];

    sheet_of(sheet, 3, NULL, 0, NULL, 0, 1);
    sheet[7] = 1, sheet[8] = 1;
    told("257 triangles", zibrotka_count_states(sheet, 11));
    sheet[7] = 0;
    told("256 triangles in eleven bytes", zibrotka_count_states(sheet, 11));
    sheet[8] = 0, sheet[6] = 64;
    told("64 edges", zibrotka_count_states(sheet, 11));
    sheet[6] = 63;
    told("63 edges in eleven bytes", zibrotka_count_states(sheet, 11));
}

static void floats(void)
{
    double params[3], above = ldexp(1, 32) * (1 + ldexp(1, -52)), below = ldexp(1, -32) * (1 - ldexp(1, -53));
    const uint32_t starts[] = {0, 1}, column[] = {0}, columns_past[] = {1};
    double value[] = {ldexp(1, 80)}, amplitude[] = {-ldexp(1, 32)}, result[1];

    told("g2 2^-32", zibrotka_u1_params(ldexp(1, -32), params));
    printf("its factors: %a %a\n", params[1], params[2]);
    told("g2 2^32", zibrotka_su2_params(ldexp(1, 32), params));
    printf("its factors: %a %a\n", params[1], params[2]);
    told("the float above 2^32", zibrotka_u1_params(above, params));
    told("the float below 2^-32", zibrotka_su2_params(below, params));
    told("g2 not a number", zibrotka_u1_params(NAN, params));
    told("a value of 2^80 and an amplitude of -2^32", zibrotka_matvec(starts, 2, column, 1, value, 1, amplitude, 1, result, 1));
    printf("their product: %a\n", result[0]);
    told("a column that is the number of rows", zibrotka_matvec(starts, 2, columns_past, 1, value, 1, amplitude, 1, result, 1));
    value[0] = ldexp(1, 80) * (1 + ldexp(1, -52));
    told("the value above 2^80", zibrotka_matvec(starts, 2, column, 1, value, 1, amplitude, 1, result, 1));
    value[0] = 1, amplitude[0] = -above;
    told("the amplitude below -2^32", zibrotka_matvec(starts, 2, column, 1, value, 1, amplitude, 1, result, 1));
}

/* The off-diagonal entry of the triangle's first row, dense and as row lists. */
static void entry(const char *what, const uint8_t *sheet, size_t n, double g_squared, double weight)
{
    double p[3], matrix[9], values[6];
    uint32_t starts[4], columns[6];

    zibrotka_u1_params(g_squared, p);
    told(what, zibrotka_build_hamiltonian(sheet, n, p[0], p[1], p[2], true, &weight, 1, states, ROOM, matrix, 9));
    told("as row lists, entries", zibrotka_build_csr(sheet, n, p[0], p[1], p[2], true, &weight, 1, states, ROOM, starts, 4, columns, 6, values, 6));
    printf("dense %a, in rows %a\n", matrix[1], values[1]);
}

static void traps(void)
{
    const double vector[] = {1, 2, 3}, z2_vector[] = {3, 5};
    const uint8_t there_and_back[] = {0, 0};
    const int8_t directions[] = {1, -1}, none[] = {1, 0};
    const int32_t second[] = {0, 0, 0, -1, 1};
    uint8_t sheet[ZIBROTKA_SHEET_BYTES];
    double expectation = 0;
    size_t n = sheet_of(sheet, 3, triangle_edges, 3, one_triangle, 1, 1);

    told("there and back over edge 0", zibrotka_wilson_loop(sheet, n, vector, 3, there_and_back, 2, directions, 2, states, ROOM, &expectation));
    printf("its expectation: %g\n", expectation);
    told("the same in Z2, by the set of the path's edges", zibrotka_su2_wilson_loop(sheet, n, z2_vector, 2, there_and_back, 2, masks, 2, &expectation));
    printf("its expectation: %g\n", expectation);
    told("the same in Z2, by its passes", zibrotka_su2_wilson_passes(sheet, n, z2_vector, 2, there_and_back, 2, masks, 2, &expectation));
    printf("its expectation: %g\n", expectation);
    told("a direction of 0", zibrotka_wilson_loop(sheet, n, vector, 3, there_and_back, 2, none, 2, states, ROOM, &expectation));
    entry("g2 3, weight 2^-1071, states", sheet, n, 3, ldexp(1, -1071));
    entry("g2 1, weight 0, states", sheet, n, 1, 0);
    n = sheet_of(sheet, 4, two_free, 5, NULL, 0, 1);
    told("two free edges, L 1, states", zibrotka_enumerate_gauge_invariant(sheet, n, states, ROOM));
    for (int i = 0; i < 3; i++)
        printf("state %d: %d %d %d %d %d\n", i, states[5 * i], states[5 * i + 1], states[5 * i + 2], states[5 * i + 3], states[5 * i + 4]);
    told("the place of one that breaks the law", zibrotka_config_to_index(sheet, n, second, 5, states, ROOM));
}

/* On the triangle with L 1. Numbers that are not told are not printed: they are as they were. */
static void findings(void)
{
    const int32_t unlawful[] = {3, 0, -2}, outside[] = {2, -2, 2}, zeros[] = {0, 0, 0};
    uint8_t sheet[ZIBROTKA_SHEET_BYTES];
    int32_t shifted[3];
    uint64_t vertex = 0, edge = 0;
    int64_t excess = 0;
    size_t n = sheet_of(sheet, 3, triangle_edges, 3, one_triangle, 1, 1);

    told("3 on (0,1) and -2 on (1,2), lawful", zibrotka_check_gauss_law_finding(sheet, n, unlawful, 3, &vertex, &excess));
    printf("vertex %llu, excess %lld\n", (unsigned long long)vertex, (long long)excess);
    told("its place", zibrotka_config_to_index_finding(sheet, n, unlawful, 3, states, ROOM, &vertex, &excess, &edge));
    printf("vertex %llu, excess %lld\n", (unsigned long long)vertex, (long long)excess);
    told("2, -2, 2, lawful", zibrotka_check_gauss_law_finding(sheet, n, outside, 3, &vertex, &excess));
    told("its place", zibrotka_config_to_index_finding(sheet, n, outside, 3, states, ROOM, &vertex, &excess, &edge));
    printf("excess %lld, edge %llu\n", (long long)excess, (unsigned long long)edge);
    told("zeros and 1 more on (1,2)", zibrotka_apply_shift_finding(sheet, n, zeros, 3, 2, 1, states, ROOM, shifted, 3, &vertex, &excess, &edge));
    printf("vertex %llu, excess %lld\n", (unsigned long long)vertex, (long long)excess);
}

int main(void)
{
    states = malloc(sizeof(int32_t) * ROOM);
    if (states == NULL)
        return 1;
    sizes();
    counts();
    floats();
    traps();
    findings();
    free(states);
    return 0;
}
