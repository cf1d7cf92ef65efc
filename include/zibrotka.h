/*
 * Gauge-invariant states on a triangle complex: the calls of libzibrotka.a and libzibrotka.so.
 *
 * Every call but zibrotka_release answers one signed number: its value, or minus one of the refusals below. A call that refuses leaves
 * every lent list and number as it was; only the two calls that tell why a configuration is not in the basis write numbers beside the
 * refusal 17. One that succeeds changes no entry of a list beyond its result. Each call judges its whole input itself.
 *
 * A list is a pointer and a length. An empty one may be NULL with length 0. What a call writes to must not overlap anything else that
 * it is given; what it only reads may. No other thread may change any of it while the call runs.
 *
 * A complex has vertices 0 to V-1, numbered edges (a, b) with a < b, and numbered triangles (a, b, c) with a < b < c. V is 1 to 64,
 * the number of edges E 0 to 63, of triangles T 0 to 256, the truncation L 0 to 1000. Its sheet has 11 + 2E + 3T bytes:
 * "GLS", version 1 (two bytes), V, E, T (two bytes), L (two bytes), two bytes an edge, three a triangle; low bytes come first.
 */
#ifndef ZIBROTKA_H
#define ZIBROTKA_H

#include <stdbool.h>
#include <stddef.h>
#include <stdint.h>

#ifdef __cplusplus
extern "C" {
#endif

/* Each with the sentence that zibrotka_refusal_text tells. */
enum zibrotka_refusal {
    /* the sheet has fewer than 11 bytes */
    ZIBROTKA_SHEET_SHORT = 1,
    /* the sheet does not begin with the mark GLS */
    ZIBROTKA_MARK = 2,
    /* the sheet's version is not 1 */
    ZIBROTKA_VERSION = 3,
    /* the number of vertices is not 1 to 64, or there are more than 63 edges or more than 256 triangles */
    ZIBROTKA_COUNTS = 4,
    /* the truncation L is over 1000 */
    ZIBROTKA_LAMBDA = 5,
    /* the length does not fit the counts: a sheet has 11 + 2E + 3T bytes, a flat list two entries an edge and three a triangle */
    ZIBROTKA_SHEET_LENGTH = 6,
    /* an edge is not a < b < V, or is listed twice */
    ZIBROTKA_EDGE = 7,
    /* a triangle is not a < b < c < V, is listed twice, or has an edge that is not listed */
    ZIBROTKA_TRIANGLE = 8,
    /* some vertex cannot be reached from vertex 0 over the listed edges */
    ZIBROTKA_UNREACHED = 9,
    /* there are more than 1048576 candidates: too many free edges, or for U(1) too large a truncation for them */
    ZIBROTKA_CANDIDATES = 10,
    /* a pentachoron has a vertex that is not below V or one vertex twice, or their flat list is no multiple of five long */
    ZIBROTKA_PENTACHORON = 11,
    /* a list does not have the length that it must have */
    ZIBROTKA_LENGTH = 12,
    /* a number is outside its range: no such edge, triangle, state, column or refusal, starts that do not run from 0 to the number of entries, or a direction that is not 1 or -1 */
    ZIBROTKA_NUMBER = 13,
    /* a float is outside its range, or a coupling record's factors are not those of its coupling in the mode of the call */
    ZIBROTKA_FLOAT = 14,
    /* a list for the result, or a work list, is too short */
    ZIBROTKA_ROOM = 15,
    /* a shifted edge leaves -L to L */
    ZIBROTKA_BAND = 16,
    /* the configuration is not in the basis */
    ZIBROTKA_NOT_LISTED = 17
};

/* The version that this header belongs to, as one number: 10000 times the first part, plus 100 times the second, plus the third. */
#define ZIBROTKA_RELEASE 10000
#define ZIBROTKA_RELEASE_TEXT "1.0.0"

/* The longest flat lists that a sheet can hold. */
#define ZIBROTKA_EDGE_BYTES 126
#define ZIBROTKA_TRIANGLE_BYTES 768
/* 11 and the two above: no longer sheet is accepted. */
#define ZIBROTKA_SHEET_BYTES 905
/* No sentence of a refusal is longer. */
#define ZIBROTKA_TEXT_BYTES 200

/*
 * Writes the sheet of flat edges (pairs) and triangles (triples) to the front of `sheet`. Answers the number of bytes written, or minus
 * 4, 5, 6, 7, 8, 9 or 15, the smallest that holds; pairs and triples are counted rounding down for 4.
 */
int64_t zibrotka_make_sheet(uint64_t n_vertices,
                            const uint8_t *edges, size_t edges_len,
                            const uint8_t *triangles, size_t triangles_len,
                            uint64_t lambda,
                            uint8_t *sheet, size_t sheet_len);

/*
 * Reads a sheet: the four numbers, 2E bytes at the front of `edges` and 3T at the front of `triangles`; the entries behind them stay as
 * they were. Answers 0, or minus one of 1 to 9.
 */
int64_t zibrotka_read_sheet(const uint8_t *sheet, size_t sheet_len,
                            uint64_t *n_vertices, uint64_t *n_edges, uint64_t *n_triangles, uint64_t *lambda,
                            uint8_t edges[ZIBROTKA_EDGE_BYTES], uint8_t triangles[ZIBROTKA_TRIANGLE_BYTES]);

/*
 * The numbers of a triangle's edges (a,b), (a,c), (b,c). Answers 0, or minus one of 1 to 9 or 13.
 */
int64_t zibrotka_tri_edge_indices(const uint8_t *sheet, size_t sheet_len, uint64_t triangle, uint64_t indices[3]);

/*
 * The edges and triangles of a flat list of pentachora, five vertices each in any order, numbered in order of first appearance, each
 * pentachoron's in dictionary order. Answers the number of edges; `n_triangles` gets the number of triangles; flat pairs and triples go
 * to the fronts of the lent lists. Or minus a refusal, the first of: 4 for V, 11, 4 for the resulting E or T, 9, 15.
 */
int64_t zibrotka_from_pentachorons(uint64_t n_vertices,
                                   const uint64_t *pentachora, size_t pentachora_len,
                                   uint8_t *edges, size_t edges_len,
                                   uint8_t *triangles, size_t triangles_len,
                                   uint64_t *n_triangles);

/*
 * The spanning tree of a sheet's complex, from vertex 0, first come first served, the edges at a vertex by rising number: V-1 tree edges
 * in the order in which they are found go to the front of `tree`, all other edges by rising number to the front of `free_edges`. Answers
 * the number of free edges, or minus one of 1 to 9 or 15 (either list too short).
 */
int64_t zibrotka_spanning_tree(const uint8_t *sheet, size_t sheet_len,
                               uint32_t *tree, size_t tree_len,
                               uint32_t *free_edges, size_t free_len);

/*
 * The fundamental loops of a sheet's complex: for each free edge (a, b), by rising number, the path in the spanning tree from a to b, then
 * the free edge back. To the front of `starts` goes where each loop begins among all steps, and behind the last the number of all steps:
 * one entry more than there are loops. The edge numbers of all steps go to the front of `edges`, and to that of `directions` 1 for each
 * step from its edge's first vertex to its second, else -1. Answers the number of loops, or minus one of 1 to 9 or 15 (a list too short).
 * 3,969 steps are enough for every sheet.
 */
int64_t zibrotka_fundamental_loops(const uint8_t *sheet, size_t sheet_len,
                                   uint32_t *starts, size_t starts_len,
                                   uint8_t *edges, size_t edges_len,
                                   int8_t *directions, size_t directions_len);

/* The same without directions. */
int64_t zibrotka_su2_fundamental_loops(const uint8_t *sheet, size_t sheet_len,
                                       uint32_t *starts, size_t starts_len,
                                       uint8_t *edges, size_t edges_len);

/*
 * Whether a configuration, one value for each edge by number, obeys Gauss's law: at every vertex the values on the edges that end there
 * add up to those on the edges that start there, an edge (a, b) going from a to b. Nothing wraps. Answers 1 or 0, or minus one of 1 to 9
 * or 12 (not as many values as edges).
 */
int64_t zibrotka_check_gauss_law(const uint8_t *sheet, size_t sheet_len, const int32_t *configuration, size_t configuration_len);

/*
 * The same, and where the answer is 0, `vertex` gets the lowest vertex at which the law does not hold, and `excess` what comes in there less
 * what goes out, which is not 0 and may be negative: the values on the edges that end there, less those on the edges that start there. Where
 * the answer is 1, both stay as they were.
 */
int64_t zibrotka_check_gauss_law_finding(const uint8_t *sheet, size_t sheet_len,
                                         const int32_t *configuration, size_t configuration_len,
                                         uint64_t *vertex, int64_t *excess);

/*
 * Lists every configuration with values from -L to L that obeys Gauss's law. Of two, the one with the smaller value on the
 * highest-numbered free edge where they differ comes first. States times E values go to the front of `states`, state after state, each
 * one's values by edge number. Answers the number of states, which is at least 1, or minus one of 1 to 9, 10 (2L+1 to the number of free
 * edges is over 1,048,576) or 15 (fewer than states times E entries).
 */
int64_t zibrotka_enumerate_gauge_invariant(const uint8_t *sheet, size_t sheet_len, int32_t *states, size_t states_len);

/*
 * The number of states that zibrotka_enumerate_gauge_invariant lists, without a list. Answers it, at least 1, or minus one of 1 to 10.
 */
int64_t zibrotka_count_states(const uint8_t *sheet, size_t sheet_len);

/*
 * The place of a configuration in the list that zibrotka_enumerate_gauge_invariant writes, counted from 0; the whole list goes to the
 * front of `states` too. Answers the place, or minus one of 1 to 10, 12 (not as many values as edges), 15 (fewer than states times E
 * entries) or 17 (the configuration is not in the list).
 */
int64_t zibrotka_config_to_index(const uint8_t *sheet, size_t sheet_len,
                                 const int32_t *configuration, size_t configuration_len,
                                 int32_t *states, size_t states_len);

/*
 * The same, and where the answer is minus 17, three numbers tell why. If the configuration breaks the law, `vertex` gets the lowest vertex
 * at which it does, and `excess` the excess there, as from zibrotka_check_gauss_law_finding, which is not 0; `edge` stays as it was. If it
 * obeys the law, `excess` gets 0 and `edge` the lowest edge whose value is not from -L to L; `vertex` stays as it was. With any other
 * answer all three stay as they were.
 */
int64_t zibrotka_config_to_index_finding(const uint8_t *sheet, size_t sheet_len,
                                         const int32_t *configuration, size_t configuration_len,
                                         int32_t *states, size_t states_len,
                                         uint64_t *vertex, int64_t *excess, uint64_t *edge);

/*
 * The place of the configuration that has `delta` more on edge number `edge`. Any 32-bit delta is added in a true sum; the configuration
 * that it starts from need not be in the list. The whole list goes to the front of `states`, the E values of the shifted configuration to
 * the front of `result`. Answers the place, or minus one of 1 to 10, 12 (not as many values as edges), 13 (no edge has the number), 15
 * (fewer than states times E entries in `states`, or than E in `result`), 16 (the sum leaves -L to L) or 17 (the shifted configuration is
 * not in the list).
 */
int64_t zibrotka_apply_shift(const uint8_t *sheet, size_t sheet_len,
                             const int32_t *configuration, size_t configuration_len,
                             uint64_t edge, int32_t delta,
                             int32_t *states, size_t states_len,
                             int32_t *result, size_t result_len);

/*
 * The same, on edge number `shifted`, and where the answer is minus 17, `vertex`, `excess` and `edge` tell of the shifted configuration what
 * zibrotka_config_to_index_finding tells. The edge told is never `shifted`, since 16 is judged first.
 */
int64_t zibrotka_apply_shift_finding(const uint8_t *sheet, size_t sheet_len,
                                     const int32_t *configuration, size_t configuration_len,
                                     uint64_t shifted, int32_t delta,
                                     int32_t *states, size_t states_len,
                                     int32_t *result, size_t result_len,
                                     uint64_t *vertex, int64_t *excess, uint64_t *edge);

/*
 * The place of the state that triangle number `triangle` makes of the state at place `state`: 1 more on its edges (a,b) and (b,c), 1 less
 * on (a,c). All states go to the front of `states`. Answers the place, or minus one of 1 to 10, 13 (no triangle or no state has the
 * number), 15 (fewer than states times E entries) or 16 (one of the three edges leaves -L to L).
 */
int64_t zibrotka_apply_triangle_shift(const uint8_t *sheet, size_t sheet_len,
                                      uint64_t triangle, uint64_t state,
                                      int32_t *states, size_t states_len);

/*
 * The basis of the two-valued truncation: every set of edges with an even number of edges at each vertex, as a mask whose bit e says that
 * edge e is in the set. The masks go to the front of `states`, ascending. Answers their number, 2 to the number of free edges, or minus
 * one of 1 to 9, 10 (more than 1,048,576) or 15 (fewer entries than masks). L plays no part, but a sheet with an L over 1000 is 5.
 */
int64_t zibrotka_su2_basis(const uint8_t *sheet, size_t sheet_len, uint64_t *states, size_t states_len);

/*
 * The number of masks that zibrotka_su2_basis lists, without a list. Answers it, at least 1, or minus one of 1 to 10.
 */
int64_t zibrotka_su2_count_states(const uint8_t *sheet, size_t sheet_len);

/*
 * The coupling with its electric and its magnetic factor, in this order, for U(1): g_squared, g_squared / 2 and -1 / g_squared. Answers 0,
 * or minus 14 (g_squared is not from 2^-32 to 2^32).
 */
int64_t zibrotka_u1_params(double g_squared, double params[3]);

/*
 * The same for the two-valued truncation: g_squared, (3 * g_squared) / 8 and -0.5 / g_squared.
 */
int64_t zibrotka_su2_params(double g_squared, double params[3]);

/*
 * The Hamiltonian as a dense matrix over the states that zibrotka_enumerate_gauge_invariant lists, n of them: n times n entries go to the
 * front of `result`, row by row, and all states to the front of `states`. From 0.0, `electric` times the sum of squares of a state is
 * added on the diagonal; then each triangle by rising number that shifts state i to state j adds (`magnetic` times its weight) times 0.5
 * at (i,j) and at (j,i). The coupling comes as zibrotka_u1_params gives it. There is one weight for each triangle by number if `given`
 * is true; else every weight is 1.0, and the list is neither judged nor read. Answers n, or minus one of 1 to 10, 12 (`given`, and not as
 * many weights as triangles), 14 (g_squared is not from 2^-32 to 2^32, a factor is not its own, or `given` and a weight is not from -2^32
 * to 2^32) or 15 (fewer than n times E entries in `states`, or than n times n in `result`).
 */
int64_t zibrotka_build_hamiltonian(const uint8_t *sheet, size_t sheet_len,
                                   double g_squared, double electric, double magnetic,
                                   bool given, const double *weights, size_t weights_len,
                                   int32_t *states, size_t states_len,
                                   double *result, size_t result_len);

/*
 * The same over the masks that zibrotka_su2_basis lists: `electric` times the number of edges in the set is added on the diagonal; then
 * each triangle by rising number flips its three bits, which leads from mask i to mask j, and adds `magnetic` times its weight at (i,j).
 * The coupling comes as zibrotka_su2_params gives it. Answers n, or minus one of 1 to 10, 12, 14 or 15 (fewer than n entries in `states`,
 * or than n times n in `result`).
 */
int64_t zibrotka_build_su2_hamiltonian(const uint8_t *sheet, size_t sheet_len,
                                       double g_squared, double electric, double magnetic,
                                       bool given, const double *weights, size_t weights_len,
                                       uint64_t *states, size_t states_len,
                                       double *result, size_t result_len);

/*
 * The matrix of zibrotka_build_hamiltonian as row lists, over the same n states. A row holds `electric` times the sum of squares of its
 * state on the diagonal, where that is not 0. For each triangle that shifts its state to another, or another to it, it holds in that other
 * state's column (`magnetic` times 0.5) times the triangle's weight, also where that is 0. Columns rise. n + 1 starts go to the front of
 * `starts`: where each row begins, and where the last one ends. The columns and values of all rows, one after the other, go to the fronts
 * of `columns` and `values`, the states to that of `states`. The coupling and the weights come as there. Answers the number of entries,
 * which zibrotka_count_entries tells too, or minus one of 1 to 10, 12, 14 or 15 (fewer than n times E entries in `states`, than n + 1 in
 * `starts`, or than the entries in `columns` or in `values`).
 */
int64_t zibrotka_build_csr(const uint8_t *sheet, size_t sheet_len,
                           double g_squared, double electric, double magnetic,
                           bool given, const double *weights, size_t weights_len,
                           int32_t *states, size_t states_len,
                           uint32_t *starts, size_t starts_len,
                           uint32_t *columns, size_t columns_len,
                           double *values, size_t values_len);

/*
 * The matrix of zibrotka_build_su2_hamiltonian as row lists, over the same n masks. A row holds `electric` times the number of edges in its
 * set on the diagonal where that is not 0, and for each triangle, in the column of the mask that it flips to, `magnetic` times its weight,
 * also where that is 0. Columns rise. n + 1 starts go to the front of `starts`: where each row begins, and where the
 * last one ends. The columns and values of all rows, one after the other, go to the fronts of `columns` and `values`, the masks to that of
 * `states`. The coupling and the weights come as there. Answers the number of entries, which is (T + 1) times n less 1, or minus one of 1
 * to 10, 12, 14 or 15 (fewer than n entries in `states`, than n + 1 in `starts`, or than the entries in `columns` or in `values`).
 */
int64_t zibrotka_build_csr_su2(const uint8_t *sheet, size_t sheet_len,
                               double g_squared, double electric, double magnetic,
                               bool given, const double *weights, size_t weights_len,
                               uint64_t *states, size_t states_len,
                               uint32_t *starts, size_t starts_len,
                               uint32_t *columns, size_t columns_len,
                               double *values, size_t values_len);

/*
 * The number of entries that zibrotka_build_csr_su2 writes, whatever the coupling and the weights are. Answers it, or minus one of 1 to 10.
 */
int64_t zibrotka_su2_count_entries(const uint8_t *sheet, size_t sheet_len);

/*
 * The product of the matrix of zibrotka_build_su2_hamiltonian with a vector of n amplitudes, one for each mask, without a matrix. From 0.0,
 * (`electric` times the number of edges in the set) times the set's own amplitude is added; then each triangle by rising number adds
 * (`magnetic` times its weight) times the amplitude of the mask that it flips to. n sums go to the front of `result`, the masks to that of
 * `states`. The coupling and the weights come as there. Answers n, or minus one of 1 to 10, 12 (also where there are not n amplitudes),
 * 14 (also where an amplitude is not from -2^32 to 2^32) or 15 (fewer than n entries in `states` or in `result`).
 */
int64_t zibrotka_su2_hamiltonian_matvec(const uint8_t *sheet, size_t sheet_len,
                                        double g_squared, double electric, double magnetic,
                                        bool given, const double *weights, size_t weights_len,
                                        const double *vector, size_t vector_len,
                                        uint64_t *states, size_t states_len,
                                        double *result, size_t result_len);

/*
 * The expectation of a loop in the two-valued truncation, for a vector of n amplitudes, one for each mask. The path is a list of edge
 * numbers; an edge that it names several times counts once (zibrotka_su2_wilson_passes counts its passes). From 0.0, each mask by rising
 * number adds (amplitude times amplitude) times 1.0, or times -1.0 where it shares an odd number of edges with the path. The sum goes to
 * `expectation`, the masks to the front of `states`. Answers 0, or minus one of 1 to 10, 12 (not n amplitudes), 13 (the path names an edge
 * that is not there), 14 (an amplitude is not from -2^32 to 2^32) or 15 (fewer than n entries in `states`).
 */
int64_t zibrotka_su2_wilson_loop(const uint8_t *sheet, size_t sheet_len,
                                 const double *vector, size_t vector_len,
                                 const uint8_t *path, size_t path_len,
                                 uint64_t *states, size_t states_len,
                                 double *expectation);

/*
 * The same, but each edge of the path counts by its number of passes modulo two: each mask adds (amplitude times amplitude) times 1.0, or
 * times -1.0 where it has an odd number of the edges that the path names an odd number of times. So the path {0, 0}, edge 0 and back, gives
 * what the empty path gives, while zibrotka_su2_wilson_loop counts edge 0 once there. A path followed by itself gives what the empty path
 * gives. Along a path that names no edge twice both calls answer the same. Answers and refuses as that call.
 */
int64_t zibrotka_su2_wilson_passes(const uint8_t *sheet, size_t sheet_len,
                                   const double *vector, size_t vector_len,
                                   const uint8_t *path, size_t path_len,
                                   uint64_t *states, size_t states_len,
                                   double *expectation);

/*
 * The number of entries of the row lists of U(1), whatever the coupling and the weights are: for each state one for each triangle and
 * direction, 1 or -1, whose shift stays within -L to L, and one on the diagonal where not all values are 0. The states are gone through one
 * by one. Answers it, or minus one of 1 to 10.
 */
int64_t zibrotka_count_entries(const uint8_t *sheet, size_t sheet_len);

/*
 * The product of the Hamiltonian with a vector of n amplitudes, one for each state that zibrotka_enumerate_gauge_invariant lists, without
 * the matrix. From 0.0, (`electric` times the sum of squares of state i) times amplitude i is added to entry i; then each triangle by rising
 * number, for each state i by rising place that it shifts to a state j, adds x times amplitude j to entry i and then x times amplitude i to
 * entry j, where x is (`magnetic` times 0.5) times its weight. n sums go to the front of `result`, all states to that of `states`. The
 * coupling and the weights come as for zibrotka_build_hamiltonian. Answers n, or minus one of 1 to 10, 12 (not n amplitudes, or `given` and
 * not as many weights as triangles), 14 (as there, or an amplitude is not from -2^32 to 2^32) or 15 (fewer than n times E entries in
 * `states`, or than n in `result`).
 */
int64_t zibrotka_hamiltonian_matvec(const uint8_t *sheet, size_t sheet_len,
                                    double g_squared, double electric, double magnetic,
                                    bool given, const double *weights, size_t weights_len,
                                    const double *vector, size_t vector_len,
                                    int32_t *states, size_t states_len,
                                    double *result, size_t result_len);

/*
 * The square of the electric field on each edge, expected in a state that is given by n amplitudes, one for each state that
 * zibrotka_enumerate_gauge_invariant lists: for each edge, from 0.0 and by rising place, each state adds ((amplitude times amplitude) times
 * m) times m, where m is its value on the edge. E sums go to the front of `result`, all states to that of `states`. Answers E, or minus one
 * of 1 to 10, 12 (not n amplitudes), 14 (an amplitude is not from -2^32 to 2^32) or 15 (fewer than n times E entries in `states`, or than E
 * in `result`).
 */
int64_t zibrotka_electric_field_sq(const uint8_t *sheet, size_t sheet_len,
                                   const double *amplitudes, size_t amplitudes_len,
                                   int32_t *states, size_t states_len,
                                   double *result, size_t result_len);

/*
 * The Wilson loop along a path, expected in a state that is given by n amplitudes as there. A step of the path adds its direction, 1 or -1,
 * on its edge; the path may be open, empty, or go over an edge several times. From 0.0 and by rising place, each state that no step takes
 * out of -L to L and that ends in a state of the list adds its amplitude times that of the state that it ends in. The sum goes to
 * `expectation`, all states to the front of `states`. Answers 0, or minus one of 1 to 10, 12 (not n amplitudes, or not as many directions as
 * edges), 13 (a step over no edge, or in a direction that is not 1 or -1), 14 (an amplitude is not from -2^32 to 2^32) or 15 (fewer than n
 * times E entries in `states`).
 */
int64_t zibrotka_wilson_loop(const uint8_t *sheet, size_t sheet_len,
                             const double *amplitudes, size_t amplitudes_len,
                             const uint8_t *edges, size_t edges_len,
                             const int8_t *directions, size_t directions_len,
                             int32_t *states, size_t states_len,
                             double *expectation);

/*
 * The product of a matrix in row lists with a vector of n amplitudes: for each row, from 0.0 and in the order of the list, each value times
 * the amplitude of its column is added. n sums go to the front of `result`. The lists may be anyone's and are judged whole. Answers 0,
 * whatever n is, or minus 12 (not n + 1 starts, or not as many columns as values), 13 (the starts do not run from 0 to the number of
 * entries without falling, or a column is not below n), 14 (a value is not from -2^80 to 2^80, or an amplitude not from -2^32 to 2^32) or
 * 15 (fewer than n entries in `result`).
 */
int64_t zibrotka_matvec(const uint32_t *starts, size_t starts_len,
                        const uint32_t *columns, size_t columns_len,
                        const double *values, size_t values_len,
                        const double *vector, size_t vector_len,
                        double *result, size_t result_len);

/*
 * The sentence of a refusal, given as a positive number: plain ASCII to the front of `text`, without a line feed and without a zero at its
 * end. Answers the number of bytes written, 1 to 200, or minus 13 (no refusal has the number) or 15 (fewer bytes than the sentence).
 */
int64_t zibrotka_refusal_text(uint64_t number, uint8_t *text, size_t text_len);

/* The version of the library. It is ZIBROTKA_RELEASE where the library and this header belong together. */
uint64_t zibrotka_release(void);

#ifdef __cplusplus
}
#endif

#endif
