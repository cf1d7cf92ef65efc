/* Calls libzibrotka.a from C: that the header and the library agree, that lists go over whole, and that refusals leave them alone. */
#include "zibrotka.h"

#include <math.h>
#include <stdio.h>
#include <string.h>

static int passed = 0;

static int check(int holds, const char *what, int line)
{
    if (!holds) {
        printf("C: line %d failed: %s\n", line, what);
        return 1;
    }
    passed++;
    return 0;
}

#define CHECK(test) \
    do { \
        if (check((test), #test, __LINE__)) \
            return 1; \
    } while (0)

/* every byte of a list has one value */
static int all_are(const uint8_t *list, size_t len, uint8_t value)
{
    for (size_t i = 0; i < len; i++)
        if (list[i] != value)
            return 0;
    return 1;
}

static const uint8_t triangle_sheet[20] = {0x47, 0x4C, 0x53, 0x01, 0x00, 0x03, 0x03, 0x01, 0x00, 0x01,
                                           0x00, 0x00, 0x01, 0x00, 0x02, 0x01, 0x02, 0x00, 0x01, 0x02};

static int making(void)
{
    const uint8_t edges[] = {0, 1, 0, 2, 1, 2};
    const uint8_t triangles[] = {0, 1, 2};
    const uint8_t turned[] = {0, 1, 2, 0, 1, 2};
    const uint8_t apart[] = {0, 1, 2, 3};
    uint8_t sheet[32];

    memset(sheet, 0xEE, sizeof sheet);
    CHECK(zibrotka_make_sheet(3, edges, 6, triangles, 3, 1, sheet, 19) == -ZIBROTKA_ROOM);
    CHECK(zibrotka_make_sheet(0, edges, 6, triangles, 3, 1, sheet, 32) == -ZIBROTKA_COUNTS);
    CHECK(zibrotka_make_sheet(UINT64_C(4294967299), edges, 6, triangles, 3, 1, sheet, 32) == -ZIBROTKA_COUNTS);
    CHECK(zibrotka_make_sheet(3, edges, 6, triangles, 3, 1001, sheet, 32) == -ZIBROTKA_LAMBDA);
    CHECK(zibrotka_make_sheet(3, edges, 5, triangles, 3, 1, sheet, 32) == -ZIBROTKA_SHEET_LENGTH);
    CHECK(zibrotka_make_sheet(3, turned, 6, triangles, 3, 1, sheet, 32) == -ZIBROTKA_EDGE);
    CHECK(zibrotka_make_sheet(3, edges, 4, triangles, 3, 1, sheet, 32) == -ZIBROTKA_TRIANGLE);
    CHECK(zibrotka_make_sheet(4, apart, 4, NULL, 0, 1, sheet, 32) == -ZIBROTKA_UNREACHED);
    CHECK(zibrotka_make_sheet(1, NULL, 0, NULL, 0, 1, NULL, 0) == -ZIBROTKA_ROOM);
    CHECK(all_are(sheet, sizeof sheet, 0xEE));

    CHECK(zibrotka_make_sheet(3, edges, 6, triangles, 3, 1, sheet, sizeof sheet) == 20);
    CHECK(memcmp(sheet, triangle_sheet, 20) == 0);
    CHECK(all_are(sheet + 20, sizeof sheet - 20, 0xEE));
    CHECK(zibrotka_make_sheet(1, NULL, 0, NULL, 0, 1000, sheet, sizeof sheet) == 11);
    return 0;
}

static int reading(void)
{
    uint64_t numbers[4] = {91, 92, 93, 94};
    uint8_t edges[ZIBROTKA_EDGE_BYTES], triangles[ZIBROTKA_TRIANGLE_BYTES];
    uint8_t damaged[20];
    /* a place of the sheet, the value put there, the refusal */
    static const int damages[][3] = {{1, 'X', 2}, {4, 1, 3}, {5, 0, 4}, {8, 2, 4}, {10, 4, 5}, {6, 2, 6}, {11, 1, 7}, {17, 1, 8}};

    memset(edges, 0xEE, sizeof edges);
    memset(triangles, 0xEE, sizeof triangles);
    CHECK(zibrotka_read_sheet(NULL, 0, &numbers[0], &numbers[1], &numbers[2], &numbers[3], edges, triangles) == -1);
    CHECK(zibrotka_read_sheet(triangle_sheet, 10, &numbers[0], &numbers[1], &numbers[2], &numbers[3], edges, triangles) == -1);
    CHECK(zibrotka_read_sheet(triangle_sheet, 11, &numbers[0], &numbers[1], &numbers[2], &numbers[3], edges, triangles) == -6);
    for (size_t i = 0; i < sizeof damages / sizeof damages[0]; i++) {
        memcpy(damaged, triangle_sheet, 20);
        damaged[damages[i][0]] = (uint8_t)damages[i][1];
        CHECK(zibrotka_read_sheet(damaged, 20, &numbers[0], &numbers[1], &numbers[2], &numbers[3], edges, triangles) == -damages[i][2]);
    }
    CHECK(numbers[0] == 91 && numbers[1] == 92 && numbers[2] == 93 && numbers[3] == 94);
    CHECK(all_are(edges, sizeof edges, 0xEE) && all_are(triangles, sizeof triangles, 0xEE));

    CHECK(zibrotka_read_sheet(triangle_sheet, 20, &numbers[0], &numbers[1], &numbers[2], &numbers[3], edges, triangles) == 0);
    CHECK(numbers[0] == 3 && numbers[1] == 3 && numbers[2] == 1 && numbers[3] == 1);
    CHECK(memcmp(edges, triangle_sheet + 11, 6) == 0 && all_are(edges + 6, sizeof edges - 6, 0xEE));
    CHECK(memcmp(triangles, triangle_sheet + 17, 3) == 0 && all_are(triangles + 3, sizeof triangles - 3, 0xEE));
    return 0;
}

static int triangle_edges(void)
{
    uint64_t indices[3] = {91, 92, 93};

    CHECK(zibrotka_tri_edge_indices(triangle_sheet, 20, 1, indices) == -ZIBROTKA_NUMBER);
    CHECK(zibrotka_tri_edge_indices(triangle_sheet, 20, UINT64_MAX, indices) == -ZIBROTKA_NUMBER);
    CHECK(zibrotka_tri_edge_indices(triangle_sheet, 19, 0, indices) == -ZIBROTKA_SHEET_LENGTH);
    CHECK(indices[0] == 91 && indices[1] == 92 && indices[2] == 93);
    CHECK(zibrotka_tri_edge_indices(triangle_sheet, 20, 0, indices) == 0);
    CHECK(indices[0] == 0 && indices[1] == 1 && indices[2] == 2);
    return 0;
}

static int pentachora(void)
{
    const uint64_t five[] = {4, 2, 0, 3, 1};
    const uint64_t twice[] = {4, 2, 0, 3, 4};
    const uint64_t huge[] = {4, 2, 0, 3, UINT64_C(4294967297)};
    const uint8_t pairs[] = {0, 1, 0, 2, 0, 3, 0, 4, 1, 2, 1, 3, 1, 4, 2, 3, 2, 4, 3, 4};
    const uint8_t triples[] = {0, 1, 2, 0, 1, 3, 0, 1, 4, 0, 2, 3, 0, 2, 4, 0, 3, 4, 1, 2, 3, 1, 2, 4, 1, 3, 4, 2, 3, 4};
    uint8_t edges[ZIBROTKA_EDGE_BYTES], triangles[ZIBROTKA_TRIANGLE_BYTES];
    uint64_t n_triangles = 91;

    memset(edges, 0xEE, sizeof edges);
    memset(triangles, 0xEE, sizeof triangles);
    CHECK(zibrotka_from_pentachorons(65, five, 5, edges, 126, triangles, 768, &n_triangles) == -ZIBROTKA_COUNTS);
    CHECK(zibrotka_from_pentachorons(5, five, 4, edges, 126, triangles, 768, &n_triangles) == -ZIBROTKA_PENTACHORON);
    CHECK(zibrotka_from_pentachorons(4, five, 5, edges, 126, triangles, 768, &n_triangles) == -ZIBROTKA_PENTACHORON);
    CHECK(zibrotka_from_pentachorons(5, twice, 5, edges, 126, triangles, 768, &n_triangles) == -ZIBROTKA_PENTACHORON);
    CHECK(zibrotka_from_pentachorons(5, huge, 5, edges, 126, triangles, 768, &n_triangles) == -ZIBROTKA_PENTACHORON);
    CHECK(zibrotka_from_pentachorons(6, five, 5, edges, 126, triangles, 768, &n_triangles) == -ZIBROTKA_UNREACHED);
    CHECK(zibrotka_from_pentachorons(5, five, 5, edges, 19, triangles, 768, &n_triangles) == -ZIBROTKA_ROOM);
    CHECK(zibrotka_from_pentachorons(5, five, 5, edges, 126, triangles, 29, &n_triangles) == -ZIBROTKA_ROOM);
    CHECK(n_triangles == 91);
    CHECK(all_are(edges, sizeof edges, 0xEE) && all_are(triangles, sizeof triangles, 0xEE));

    CHECK(zibrotka_from_pentachorons(5, five, 5, edges, 126, triangles, 768, &n_triangles) == 10);
    CHECK(n_triangles == 10);
    CHECK(memcmp(edges, pairs, 20) == 0 && all_are(edges + 20, sizeof edges - 20, 0xEE));
    CHECK(memcmp(triangles, triples, 30) == 0 && all_are(triangles + 30, sizeof triangles - 30, 0xEE));
    CHECK(zibrotka_from_pentachorons(1, NULL, 0, NULL, 0, NULL, 0, &n_triangles) == 0);
    CHECK(n_triangles == 0);
    return 0;
}

/* every entry of a list has one value */
static int entries_are(const uint32_t *list, size_t len, uint32_t value)
{
    for (size_t i = 0; i < len; i++)
        if (list[i] != value)
            return 0;
    return 1;
}

/* one vertex; four vertices with the edges (2,3) (0,2) (1,2) (0,1) in this order; two vertices apart; the square (0,1) (1,2) (2,3) (0,3) */
static const uint8_t point_sheet[11] = {'G', 'L', 'S', 1, 0, 1, 0, 0, 0, 1, 0};
static const uint8_t kite_sheet[19] = {'G', 'L', 'S', 1, 0, 4, 4, 0, 0, 1, 0, 2, 3, 0, 2, 1, 2, 0, 1};
static const uint8_t apart_sheet[11] = {'G', 'L', 'S', 1, 0, 2, 0, 0, 0, 1, 0};
static const uint8_t square_sheet[19] = {'G', 'L', 'S', 1, 0, 4, 4, 0, 0, 1, 0, 0, 1, 1, 2, 2, 3, 0, 3};

static int trees(void)
{
    uint32_t tree[8], free_edges[8];

    memset(tree, 0xEE, sizeof tree);
    memset(free_edges, 0xEE, sizeof free_edges);
    CHECK(zibrotka_spanning_tree(NULL, 0, tree, 8, free_edges, 8) == -ZIBROTKA_SHEET_SHORT);
    CHECK(zibrotka_spanning_tree(triangle_sheet, 19, tree, 8, free_edges, 8) == -ZIBROTKA_SHEET_LENGTH);
    CHECK(zibrotka_spanning_tree(apart_sheet, 11, tree, 8, free_edges, 8) == -ZIBROTKA_UNREACHED);
    CHECK(zibrotka_spanning_tree(apart_sheet, 11, NULL, 0, NULL, 0) == -ZIBROTKA_UNREACHED);
    CHECK(zibrotka_spanning_tree(triangle_sheet, 20, tree, 1, free_edges, 8) == -ZIBROTKA_ROOM);
    CHECK(zibrotka_spanning_tree(triangle_sheet, 20, tree, 8, NULL, 0) == -ZIBROTKA_ROOM);
    CHECK(entries_are(tree, 8, 0xEEEEEEEE) && entries_are(free_edges, 8, 0xEEEEEEEE));

    CHECK(zibrotka_spanning_tree(triangle_sheet, 20, tree, 8, free_edges, 8) == 1);
    CHECK(tree[0] == 0 && tree[1] == 1 && entries_are(tree + 2, 6, 0xEEEEEEEE));
    CHECK(free_edges[0] == 2 && entries_are(free_edges + 1, 7, 0xEEEEEEEE));
    CHECK(zibrotka_spanning_tree(kite_sheet, 19, tree, 3, free_edges, 1) == 1);
    CHECK(tree[0] == 1 && tree[1] == 3 && tree[2] == 0 && entries_are(tree + 3, 5, 0xEEEEEEEE));
    CHECK(free_edges[0] == 2 && entries_are(free_edges + 1, 7, 0xEEEEEEEE));
    CHECK(zibrotka_spanning_tree(point_sheet, 11, NULL, 0, NULL, 0) == 0);
    return 0;
}

static int loops(void)
{
    uint32_t starts[4], two[3];
    uint8_t edges[8];
    int8_t directions[8];

    memset(starts, 0xEE, sizeof starts);
    memset(edges, 0xEE, sizeof edges);
    memset(directions, 0x77, sizeof directions);
    CHECK(zibrotka_fundamental_loops(NULL, 0, starts, 4, edges, 8, directions, 8) == -ZIBROTKA_SHEET_SHORT);
    CHECK(zibrotka_fundamental_loops(apart_sheet, 11, NULL, 0, NULL, 0, NULL, 0) == -ZIBROTKA_UNREACHED);
    CHECK(zibrotka_fundamental_loops(triangle_sheet, 20, starts, 1, edges, 8, directions, 8) == -ZIBROTKA_ROOM);
    CHECK(zibrotka_fundamental_loops(triangle_sheet, 20, starts, 4, edges, 2, directions, 8) == -ZIBROTKA_ROOM);
    CHECK(zibrotka_fundamental_loops(triangle_sheet, 20, starts, 4, edges, 8, directions, 2) == -ZIBROTKA_ROOM);
    CHECK(entries_are(starts, 4, 0xEEEEEEEE) && edges[0] == 0xEE && directions[0] == 0x77);

    CHECK(zibrotka_fundamental_loops(triangle_sheet, 20, starts, 4, edges, 8, directions, 8) == 1);
    CHECK(starts[0] == 0 && starts[1] == 3 && entries_are(starts + 2, 2, 0xEEEEEEEE));
    CHECK(edges[0] == 0 && edges[1] == 1 && edges[2] == 2 && edges[3] == 0xEE);
    CHECK(directions[0] == -1 && directions[1] == 1 && directions[2] == -1 && directions[3] == 0x77);
    CHECK(zibrotka_fundamental_loops(point_sheet, 11, starts, 1, NULL, 0, NULL, 0) == 0 && starts[0] == 0);

    memset(edges, 0xEE, sizeof edges);
    CHECK(zibrotka_su2_fundamental_loops(triangle_sheet, 20, two, 1, edges, 8) == -ZIBROTKA_ROOM && edges[0] == 0xEE);
    CHECK(zibrotka_su2_fundamental_loops(triangle_sheet, 20, two, 3, edges, 3) == 1);
    CHECK(two[0] == 0 && two[1] == 3 && edges[0] == 0 && edges[1] == 1 && edges[2] == 2 && edges[3] == 0xEE);
    return 0;
}

static int laws(void)
{
    const int32_t lawful[] = {INT32_MAX, -INT32_MAX, INT32_MAX, 0}, one_off[] = {1, -1, 2}, one_way[] = {1, 1, 1, 1};
    const int32_t wrapping[] = {INT32_MIN, INT32_MIN, INT32_MIN, INT32_MIN};

    CHECK(zibrotka_check_gauss_law(NULL, 0, lawful, 3) == -ZIBROTKA_SHEET_SHORT);
    CHECK(zibrotka_check_gauss_law(apart_sheet, 11, lawful, 3) == -ZIBROTKA_UNREACHED);
    CHECK(zibrotka_check_gauss_law(triangle_sheet, 20, lawful, 2) == -ZIBROTKA_LENGTH);
    CHECK(zibrotka_check_gauss_law(triangle_sheet, 20, lawful, 4) == -ZIBROTKA_LENGTH);
    CHECK(zibrotka_check_gauss_law(triangle_sheet, 20, NULL, 0) == -ZIBROTKA_LENGTH);
    CHECK(zibrotka_check_gauss_law(triangle_sheet, 20, lawful, 3) == 1);
    CHECK(zibrotka_check_gauss_law(triangle_sheet, 20, one_off, 3) == 0);
    CHECK(zibrotka_check_gauss_law(triangle_sheet, 20, one_way, 3) == 0);
    CHECK(zibrotka_check_gauss_law(square_sheet, 19, one_way, 4) == 0);
    CHECK(zibrotka_check_gauss_law(square_sheet, 19, wrapping, 4) == 0);
    CHECK(zibrotka_check_gauss_law(point_sheet, 11, NULL, 0) == 1);
    return 0;
}

static int law_findings(void)
{
    const int32_t lawful[] = {INT32_MAX, -INT32_MAX, INT32_MAX, 0}, one_off[] = {1, -1, 2}, below[] = {3, 0, -2}, above[] = {-3, 0, 0};
    const int32_t wrapping[] = {INT32_MIN, INT32_MIN, INT32_MIN, INT32_MIN};
    /* vertex 0 and an edge to each of the 63 others */
    uint8_t star_sheet[11 + 126] = {'G', 'L', 'S', 1, 0, 64, 63, 0, 0, 1, 0};
    int32_t on_star[63];
    uint64_t vertex = 91;
    int64_t excess = -92;

    CHECK(zibrotka_check_gauss_law_finding(NULL, 0, one_off, 3, &vertex, &excess) == -ZIBROTKA_SHEET_SHORT);
    CHECK(zibrotka_check_gauss_law_finding(apart_sheet, 11, one_off, 3, &vertex, &excess) == -ZIBROTKA_UNREACHED);
    CHECK(zibrotka_check_gauss_law_finding(triangle_sheet, 20, one_off, 2, &vertex, &excess) == -ZIBROTKA_LENGTH);
    CHECK(zibrotka_check_gauss_law_finding(triangle_sheet, 20, wrapping, 4, &vertex, &excess) == -ZIBROTKA_LENGTH);
    CHECK(zibrotka_check_gauss_law_finding(triangle_sheet, 20, NULL, 0, &vertex, &excess) == -ZIBROTKA_LENGTH);
    CHECK(zibrotka_check_gauss_law_finding(triangle_sheet, 20, lawful, 3, &vertex, &excess) == 1);
    CHECK(zibrotka_check_gauss_law_finding(point_sheet, 11, NULL, 0, &vertex, &excess) == 1);
    CHECK(vertex == 91 && excess == -92);

    CHECK(zibrotka_check_gauss_law_finding(triangle_sheet, 20, one_off, 3, &vertex, &excess) == 0);
    CHECK(vertex == 1 && excess == -1);
    CHECK(zibrotka_check_gauss_law_finding(triangle_sheet, 20, below, 3, &vertex, &excess) == 0);
    CHECK(vertex == 0 && excess == -3);
    CHECK(zibrotka_check_gauss_law_finding(triangle_sheet, 20, above, 3, &vertex, &excess) == 0);
    CHECK(vertex == 0 && excess == 3);
    CHECK(zibrotka_check_gauss_law_finding(kite_sheet, 19, above, 3, &vertex, &excess) == -ZIBROTKA_LENGTH);
    CHECK(zibrotka_check_gauss_law_finding(kite_sheet, 19, lawful, 4, &vertex, &excess) == 0);
    CHECK(vertex == 0 && excess == INT32_MAX);
    CHECK(zibrotka_check_gauss_law_finding(square_sheet, 19, wrapping, 4, &vertex, &excess) == 0);
    CHECK(vertex == 0 && excess == INT64_C(4294967296));

    for (uint8_t i = 0; i < 63; i++) {
        star_sheet[12 + 2 * i] = (uint8_t)(i + 1);
        on_star[i] = INT32_MIN;
    }
    CHECK(zibrotka_check_gauss_law_finding(star_sheet, sizeof star_sheet, on_star, 63, &vertex, &excess) == 0);
    CHECK(vertex == 0 && excess == INT64_C(135291469824));
    for (size_t i = 0; i < 63; i++)
        on_star[i] = INT32_MAX;
    CHECK(zibrotka_check_gauss_law_finding(star_sheet, sizeof star_sheet, on_star, 63, &vertex, &excess) == 0);
    CHECK(vertex == 0 && excess == -INT64_C(135291469761));
    for (size_t i = 0; i < 61; i++)
        on_star[i] = 0;
    on_star[61] = 5, on_star[62] = -5;
    CHECK(zibrotka_check_gauss_law_finding(star_sheet, sizeof star_sheet, on_star, 63, &vertex, &excess) == 0);
    CHECK(vertex == 62 && excess == 5);
    return 0;
}

/* no entry of a list was written to */
static int as_it_was(const int32_t *list, size_t len)
{
    return all_are((const uint8_t *)list, len * sizeof *list, 0xEE);
}

/* the states of the triangle sheet, and whether they stand at the front of a list with nothing else changed */
static const int32_t on_triangle[9] = {-1, 1, -1, 0, 0, 0, 1, -1, 1};

static int begins_with_the_basis(const int32_t *list, size_t len)
{
    return memcmp(list, on_triangle, sizeof on_triangle) == 0 && as_it_was(list + 9, len - 9);
}

static int listings(void)
{
    const int32_t on_kite[] = {0, 1, -1, -1, 0, 0, 0, 0, 0, -1, 1, 1};
    /* (0,1) (0,2) (1,2) (0,3) (1,3): two free edges, and L 512 */
    const uint8_t over[] = {'G', 'L', 'S', 1, 0, 4, 5, 0, 0, 0, 2, 0, 1, 0, 2, 1, 2, 0, 3, 1, 3};
    int32_t states[16];

    memset(states, 0xEE, sizeof states);
    CHECK(zibrotka_enumerate_gauge_invariant(NULL, 0, states, 16) == -ZIBROTKA_SHEET_SHORT);
    CHECK(zibrotka_enumerate_gauge_invariant(apart_sheet, 11, states, 16) == -ZIBROTKA_UNREACHED);
    CHECK(zibrotka_enumerate_gauge_invariant(over, sizeof over, states, 16) == -ZIBROTKA_CANDIDATES);
    CHECK(zibrotka_enumerate_gauge_invariant(over, sizeof over, NULL, 0) == -ZIBROTKA_CANDIDATES);
    CHECK(zibrotka_enumerate_gauge_invariant(triangle_sheet, 20, states, 8) == -ZIBROTKA_ROOM);
    CHECK(zibrotka_enumerate_gauge_invariant(triangle_sheet, 20, NULL, 0) == -ZIBROTKA_ROOM);
    CHECK(as_it_was(states, 16));

    CHECK(zibrotka_enumerate_gauge_invariant(triangle_sheet, 20, states, 16) == 3);
    CHECK(begins_with_the_basis(states, 16));
    CHECK(zibrotka_enumerate_gauge_invariant(kite_sheet, 19, states, 12) == 3);
    CHECK(memcmp(states, on_kite, sizeof on_kite) == 0 && as_it_was(states + 12, 4));
    CHECK(zibrotka_enumerate_gauge_invariant(point_sheet, 11, NULL, 0) == 1);
    return 0;
}

static int places(void)
{
    const int32_t zero[] = {0, 0, 0, 0}, last[] = {1, -1, 1}, unlawful[] = {0, 0, 1}, outside[] = {2, -2, 2};
    int32_t states[16];

    memset(states, 0xEE, sizeof states);
    CHECK(zibrotka_config_to_index(NULL, 0, zero, 3, states, 16) == -ZIBROTKA_SHEET_SHORT);
    CHECK(zibrotka_config_to_index(triangle_sheet, 20, zero, 4, states, 8) == -ZIBROTKA_LENGTH);
    CHECK(zibrotka_config_to_index(triangle_sheet, 20, NULL, 0, NULL, 0) == -ZIBROTKA_LENGTH);
    CHECK(zibrotka_config_to_index(triangle_sheet, 20, unlawful, 3, states, 8) == -ZIBROTKA_ROOM);
    CHECK(zibrotka_config_to_index(triangle_sheet, 20, unlawful, 3, states, 16) == -ZIBROTKA_NOT_LISTED);
    CHECK(zibrotka_config_to_index(triangle_sheet, 20, outside, 3, states, 16) == -ZIBROTKA_NOT_LISTED);
    CHECK(as_it_was(states, 16));

    CHECK(zibrotka_config_to_index(triangle_sheet, 20, zero, 3, states, 16) == 1);
    CHECK(begins_with_the_basis(states, 16));
    CHECK(zibrotka_config_to_index(triangle_sheet, 20, last, 3, states, 9) == 2);
    CHECK(zibrotka_config_to_index(point_sheet, 11, NULL, 0, NULL, 0) == 0);
    return 0;
}

static int place_findings(void)
{
    const int32_t zero[] = {0, 0, 0, 0}, unlawful[] = {0, 0, 1}, outside[] = {2, -2, 2}, both[] = {3, 0, -2}, on_loop[] = {0, -2, 2, 2};
    int32_t states[16];
    uint64_t vertex = 91, edge = 93;
    int64_t excess = -92;

    memset(states, 0xEE, sizeof states);
    CHECK(zibrotka_config_to_index_finding(NULL, 0, both, 3, states, 16, &vertex, &excess, &edge) == -ZIBROTKA_SHEET_SHORT);
    CHECK(zibrotka_config_to_index_finding(triangle_sheet, 20, zero, 4, states, 8, &vertex, &excess, &edge) == -ZIBROTKA_LENGTH);
    CHECK(zibrotka_config_to_index_finding(triangle_sheet, 20, NULL, 0, NULL, 0, &vertex, &excess, &edge) == -ZIBROTKA_LENGTH);
    CHECK(zibrotka_config_to_index_finding(triangle_sheet, 20, unlawful, 3, states, 8, &vertex, &excess, &edge) == -ZIBROTKA_ROOM);
    CHECK(zibrotka_config_to_index_finding(triangle_sheet, 20, outside, 3, states, 8, &vertex, &excess, &edge) == -ZIBROTKA_ROOM);
    CHECK(vertex == 91 && excess == -92 && edge == 93);

    CHECK(zibrotka_config_to_index_finding(triangle_sheet, 20, unlawful, 3, states, 16, &vertex, &excess, &edge) == -ZIBROTKA_NOT_LISTED);
    CHECK(vertex == 1 && excess == -1 && edge == 93);
    CHECK(zibrotka_config_to_index_finding(triangle_sheet, 20, outside, 3, states, 16, &vertex, &excess, &edge) == -ZIBROTKA_NOT_LISTED);
    CHECK(vertex == 1 && excess == 0 && edge == 0);
    CHECK(zibrotka_config_to_index_finding(kite_sheet, 19, on_loop, 4, states, 16, &vertex, &excess, &edge) == -ZIBROTKA_NOT_LISTED);
    CHECK(vertex == 1 && excess == 0 && edge == 1);
    /* the law is told first */
    CHECK(zibrotka_config_to_index_finding(triangle_sheet, 20, both, 3, states, 16, &vertex, &excess, &edge) == -ZIBROTKA_NOT_LISTED);
    CHECK(vertex == 0 && excess == -3 && edge == 1);
    CHECK(as_it_was(states, 16));

    CHECK(zibrotka_config_to_index_finding(triangle_sheet, 20, zero, 3, states, 16, &vertex, &excess, &edge) == 1);
    CHECK(begins_with_the_basis(states, 16));
    CHECK(zibrotka_config_to_index_finding(point_sheet, 11, NULL, 0, NULL, 0, &vertex, &excess, &edge) == 0);
    CHECK(vertex == 0 && excess == -3 && edge == 1);
    return 0;
}

static int shifts(void)
{
    const int32_t zero[] = {0, 0, 0, 0}, below[] = {INT32_MIN, 0, 0}, above[] = {INT32_MAX, 1, -1};
    int32_t states[16], result[8];

    memset(states, 0xEE, sizeof states);
    memset(result, 0xEE, sizeof result);
    CHECK(zibrotka_apply_shift(triangle_sheet, 19, zero, 3, 0, 1, states, 16, result, 8) == -ZIBROTKA_SHEET_LENGTH);
    CHECK(zibrotka_apply_shift(triangle_sheet, 20, zero, 4, 3, 2, states, 8, result, 2) == -ZIBROTKA_LENGTH);
    CHECK(zibrotka_apply_shift(triangle_sheet, 20, zero, 3, 3, 2, states, 8, result, 2) == -ZIBROTKA_NUMBER);
    CHECK(zibrotka_apply_shift(triangle_sheet, 20, zero, 3, UINT64_C(4294967296), 0, states, 16, result, 8) == -ZIBROTKA_NUMBER);
    CHECK(zibrotka_apply_shift(triangle_sheet, 20, zero, 3, 0, 2, states, 8, result, 8) == -ZIBROTKA_ROOM);
    CHECK(zibrotka_apply_shift(triangle_sheet, 20, zero, 3, 0, 2, states, 16, result, 2) == -ZIBROTKA_ROOM);
    CHECK(zibrotka_apply_shift(triangle_sheet, 20, zero, 3, 0, 2, states, 16, result, 8) == -ZIBROTKA_BAND);
    CHECK(zibrotka_apply_shift(triangle_sheet, 20, below, 3, 0, INT32_MIN, states, 16, result, 8) == -ZIBROTKA_BAND);
    CHECK(zibrotka_apply_shift(triangle_sheet, 20, zero, 3, 0, 1, states, 16, result, 8) == -ZIBROTKA_NOT_LISTED);
    CHECK(as_it_was(states, 16) && as_it_was(result, 8));

    CHECK(zibrotka_apply_shift(triangle_sheet, 20, zero, 3, 2, 0, states, 16, result, 8) == 1);
    CHECK(begins_with_the_basis(states, 16));
    CHECK(memcmp(result, zero, 12) == 0 && as_it_was(result + 3, 5));
    CHECK(zibrotka_apply_shift(triangle_sheet, 20, above, 3, 0, INT32_MIN, states, 9, result, 3) == 0);
    CHECK(memcmp(result, on_triangle, 12) == 0);
    return 0;
}

static int shift_findings(void)
{
    const int32_t zero[] = {0, 0, 0, 0}, above[] = {INT32_MAX, 1, -1}, beside[] = {7, -2, 2, 2}, far[] = {1, INT32_MIN, INT32_MIN};
    int32_t states[16], result[8];
    uint64_t vertex = 91, edge = 93;
    int64_t excess = -92;

    memset(states, 0xEE, sizeof states);
    memset(result, 0xEE, sizeof result);
    CHECK(zibrotka_apply_shift_finding(triangle_sheet, 19, zero, 3, 0, 1, states, 16, result, 8, &vertex, &excess, &edge) == -ZIBROTKA_SHEET_LENGTH);
    CHECK(zibrotka_apply_shift_finding(triangle_sheet, 20, zero, 4, 0, 1, states, 16, result, 8, &vertex, &excess, &edge) == -ZIBROTKA_LENGTH);
    CHECK(zibrotka_apply_shift_finding(triangle_sheet, 20, zero, 3, 3, 1, states, 16, result, 8, &vertex, &excess, &edge) == -ZIBROTKA_NUMBER);
    CHECK(zibrotka_apply_shift_finding(triangle_sheet, 20, zero, 3, 0, 1, states, 8, result, 8, &vertex, &excess, &edge) == -ZIBROTKA_ROOM);
    CHECK(zibrotka_apply_shift_finding(triangle_sheet, 20, zero, 3, 0, 1, states, 16, result, 2, &vertex, &excess, &edge) == -ZIBROTKA_ROOM);
    CHECK(zibrotka_apply_shift_finding(triangle_sheet, 20, zero, 3, 0, 2, states, 16, result, 8, &vertex, &excess, &edge) == -ZIBROTKA_BAND);
    CHECK(vertex == 91 && excess == -92 && edge == 93);

    CHECK(zibrotka_apply_shift_finding(triangle_sheet, 20, zero, 3, 0, 1, states, 16, result, 8, &vertex, &excess, &edge) == -ZIBROTKA_NOT_LISTED);
    CHECK(vertex == 0 && excess == -1 && edge == 93);
    CHECK(zibrotka_apply_shift_finding(triangle_sheet, 20, far, 3, 0, -1, states, 16, result, 8, &vertex, &excess, &edge) == -ZIBROTKA_NOT_LISTED);
    CHECK(vertex == 0 && excess == INT64_C(2147483648) && edge == 93);
    /* the loop is outside the band, and the shift makes the values lawful */
    CHECK(zibrotka_apply_shift_finding(kite_sheet, 19, beside, 4, 0, -7, states, 16, result, 8, &vertex, &excess, &edge) == -ZIBROTKA_NOT_LISTED);
    CHECK(vertex == 0 && excess == 0 && edge == 1);
    CHECK(zibrotka_apply_shift_finding(kite_sheet, 19, beside, 4, 0, -6, states, 16, result, 8, &vertex, &excess, &edge) == -ZIBROTKA_NOT_LISTED);
    CHECK(vertex == 2 && excess == -1 && edge == 1);
    CHECK(as_it_was(states, 16) && as_it_was(result, 8));

    CHECK(zibrotka_apply_shift_finding(triangle_sheet, 20, above, 3, 0, INT32_MIN, states, 9, result, 3, &vertex, &excess, &edge) == 0);
    CHECK(begins_with_the_basis(states, 16));
    CHECK(memcmp(result, on_triangle, 12) == 0 && as_it_was(result + 3, 5));
    CHECK(vertex == 2 && excess == -1 && edge == 1);
    return 0;
}

static int triangle_shifts(void)
{
    int32_t states[16];

    memset(states, 0xEE, sizeof states);
    CHECK(zibrotka_apply_triangle_shift(apart_sheet, 11, 0, 0, states, 16) == -ZIBROTKA_UNREACHED);
    CHECK(zibrotka_apply_triangle_shift(triangle_sheet, 20, 1, 0, states, 8) == -ZIBROTKA_NUMBER);
    CHECK(zibrotka_apply_triangle_shift(triangle_sheet, 20, 0, 3, states, 8) == -ZIBROTKA_NUMBER);
    CHECK(zibrotka_apply_triangle_shift(triangle_sheet, 20, UINT64_MAX, UINT64_MAX, NULL, 0) == -ZIBROTKA_NUMBER);
    CHECK(zibrotka_apply_triangle_shift(triangle_sheet, 20, 0, 2, states, 8) == -ZIBROTKA_ROOM);
    CHECK(zibrotka_apply_triangle_shift(triangle_sheet, 20, 0, 2, states, 16) == -ZIBROTKA_BAND);
    CHECK(as_it_was(states, 16));

    CHECK(zibrotka_apply_triangle_shift(triangle_sheet, 20, 0, 0, states, 16) == 1);
    CHECK(begins_with_the_basis(states, 16));
    CHECK(zibrotka_apply_triangle_shift(triangle_sheet, 20, 0, 1, states, 9) == 2);
    return 0;
}

/* whether masks stand at the front of a list and the eight entries behind them are as they were */
static int holds_masks(const uint64_t *list, const uint64_t *masks, size_t len)
{
    return memcmp(list, masks, len * sizeof *masks) == 0 && all_are((const uint8_t *)(list + len), 8 * sizeof *list, 0xEE);
}

static int masks(void)
{
    const uint64_t on_three[] = {0, 7}, on_six[] = {0, 11, 21, 30, 38, 45, 51, 56}, on_none[] = {0};
    const uint8_t tetrahedron[] = {'G', 'L', 'S', 1, 0, 4, 6, 0, 0, 1, 0, 0, 1, 0, 2, 0, 3, 1, 2, 1, 3, 2, 3};
    /* all 28 edges on eight vertices, 21 of them free, and then one vertex more, alone */
    uint8_t over[11 + 56] = {'G', 'L', 'S', 1, 0, 8, 28, 0, 0, 1, 0};
    uint8_t damaged[20];
    uint64_t states[16];
    size_t at = 11;

    for (uint8_t a = 0; a < 8; a++)
        for (uint8_t b = (uint8_t)(a + 1); b < 8; b++) {
            over[at++] = a;
            over[at++] = b;
        }
    memset(states, 0xEE, sizeof states);
    CHECK(zibrotka_su2_basis(NULL, 0, states, 16) == -ZIBROTKA_SHEET_SHORT);
    CHECK(zibrotka_su2_basis(triangle_sheet, 19, states, 16) == -ZIBROTKA_SHEET_LENGTH);
    memcpy(damaged, triangle_sheet, 20);
    damaged[10] = 4;
    CHECK(zibrotka_su2_basis(damaged, 20, states, 16) == -ZIBROTKA_LAMBDA);
    CHECK(zibrotka_su2_basis(apart_sheet, 11, NULL, 0) == -ZIBROTKA_UNREACHED);
    CHECK(zibrotka_su2_basis(over, sizeof over, states, 16) == -ZIBROTKA_CANDIDATES);
    CHECK(zibrotka_su2_basis(over, sizeof over, NULL, 0) == -ZIBROTKA_CANDIDATES);
    over[5] = 9;
    CHECK(zibrotka_su2_basis(over, sizeof over, states, 16) == -ZIBROTKA_UNREACHED);
    CHECK(zibrotka_su2_basis(triangle_sheet, 20, states, 1) == -ZIBROTKA_ROOM);
    CHECK(zibrotka_su2_basis(tetrahedron, sizeof tetrahedron, states, 7) == -ZIBROTKA_ROOM);
    CHECK(zibrotka_su2_basis(point_sheet, 11, NULL, 0) == -ZIBROTKA_ROOM);
    CHECK(all_are((const uint8_t *)states, sizeof states, 0xEE));

    CHECK(zibrotka_su2_basis(point_sheet, 11, states, 16) == 1);
    CHECK(holds_masks(states, on_none, 1));
    CHECK(zibrotka_su2_basis(triangle_sheet, 20, states, 2) == 2);
    CHECK(holds_masks(states, on_three, 2));
    CHECK(zibrotka_su2_basis(tetrahedron, sizeof tetrahedron, states, 16) == 8);
    CHECK(holds_masks(states, on_six, 8));
    return 0;
}

static int couplings(void)
{
    const double u1[] = {4.0, 2.0, -0.25}, su2[] = {4.0, 1.5, -0.125};
    const double lowest = 1.0 / 4294967296.0, highest = 4294967296.0;
    const double outside[] = {(double)NAN, (double)INFINITY, -(double)INFINITY, 0.0, -1.0, lowest / 2, 2 * highest};
    double params[4];

    memset(params, 0xEE, sizeof params);
    for (size_t i = 0; i < sizeof outside / sizeof outside[0]; i++) {
        CHECK(zibrotka_u1_params(outside[i], params) == -ZIBROTKA_FLOAT);
        CHECK(zibrotka_su2_params(outside[i], params) == -ZIBROTKA_FLOAT);
    }
    CHECK(all_are((const uint8_t *)params, sizeof params, 0xEE));

    CHECK(zibrotka_u1_params(4.0, params) == 0);
    CHECK(memcmp(params, u1, sizeof u1) == 0);
    CHECK(zibrotka_su2_params(4.0, params) == 0);
    CHECK(memcmp(params, su2, sizeof su2) == 0);
    CHECK(all_are((const uint8_t *)(params + 3), sizeof *params, 0xEE));
    CHECK(zibrotka_u1_params(lowest, params) == 0);
    CHECK(params[0] == lowest && params[1] == lowest / 2 && params[2] == -highest);
    CHECK(zibrotka_su2_params(highest, params) == 0);
    CHECK(params[0] == highest && params[1] == 3 * highest / 8 && params[2] == -lowest / 2);
    return 0;
}

/* whether a matrix stands at the front of a list of 16 entries and those behind it are as they were */
static int holds_matrix(const double *list, const double *matrix, size_t len)
{
    return memcmp(list, matrix, len * sizeof *list) == 0 && all_are((const uint8_t *)(list + len), (16 - len) * sizeof *list, 0xEE);
}

static int dense(void)
{
    const double rows[] = {1.5, -0.5, 0, -0.5, 0, -0.5, 0, -0.5, 1.5};
    const double weighted[] = {1.5, -1.5, 0, -1.5, 0, -1.5, 0, -1.5, 1.5}, unweighted[] = {1.5, 0, 0, 0, 0, 0, 0, 0, 1.5};
    const double three[] = {3.0, 3.0}, none[] = {0.0}, no_number[] = {(double)NAN, (double)NAN};
    int32_t states[16];
    double result[16];

    memset(states, 0xEE, sizeof states);
    memset(result, 0xEE, sizeof result);
    CHECK(zibrotka_build_hamiltonian(NULL, 0, 0, 0, 0, true, NULL, 0, NULL, 0, NULL, 0) == -ZIBROTKA_SHEET_SHORT);
    CHECK(zibrotka_build_hamiltonian(apart_sheet, 11, 1, 0.5, -1, false, NULL, 0, states, 16, result, 16) == -ZIBROTKA_UNREACHED);
    CHECK(zibrotka_build_hamiltonian(triangle_sheet, 20, 0, 0, 0, true, no_number, 2, states, 8, result, 8) == -ZIBROTKA_LENGTH);
    CHECK(zibrotka_build_hamiltonian(triangle_sheet, 20, 1, 0.5, -1, true, NULL, 0, states, 16, result, 16) == -ZIBROTKA_LENGTH);
    CHECK(zibrotka_build_hamiltonian(triangle_sheet, 20, 1, 0.5, -1, true, no_number, 1, states, 8, result, 8) == -ZIBROTKA_FLOAT);
    CHECK(zibrotka_build_hamiltonian(triangle_sheet, 20, 0, 0, 0, false, NULL, 0, states, 8, result, 8) == -ZIBROTKA_FLOAT);
    CHECK(zibrotka_build_hamiltonian(triangle_sheet, 20, 1, 0.375, -0.5, false, NULL, 0, states, 16, result, 16) == -ZIBROTKA_FLOAT);
    CHECK(zibrotka_build_hamiltonian(triangle_sheet, 20, 1, 0.5, -1, false, NULL, 0, states, 8, result, 16) == -ZIBROTKA_ROOM);
    CHECK(zibrotka_build_hamiltonian(triangle_sheet, 20, 1, 0.5, -1, true, three, 1, states, 16, result, 8) == -ZIBROTKA_ROOM);
    CHECK(as_it_was(states, 16) && holds_matrix(result, rows, 0));

    CHECK(zibrotka_build_hamiltonian(triangle_sheet, 20, 1, 0.5, -1, false, NULL, 0, states, 16, result, 16) == 3);
    CHECK(begins_with_the_basis(states, 16) && holds_matrix(result, rows, 9));
    CHECK(zibrotka_build_hamiltonian(triangle_sheet, 20, 1, 0.5, -1, true, three, 1, states, 9, result, 9) == 3);
    CHECK(begins_with_the_basis(states, 16) && holds_matrix(result, weighted, 9));
    CHECK(zibrotka_build_hamiltonian(triangle_sheet, 20, 1, 0.5, -1, true, none, 1, states, 9, result, 9) == 3);
    CHECK(holds_matrix(result, unweighted, 9));
    CHECK(zibrotka_build_hamiltonian(triangle_sheet, 20, 1, 0.5, -1, false, no_number, 2, states, 9, result, 9) == 3);
    CHECK(holds_matrix(result, rows, 9));
    memset(result, 0xEE, sizeof result);
    CHECK(zibrotka_build_hamiltonian(point_sheet, 11, 1, 0.5, -1, true, NULL, 0, NULL, 0, result, 16) == 1);
    CHECK(holds_matrix(result, none, 1));
    return 0;
}

static int su2_dense(void)
{
    const double rows[] = {0, -0.5, -0.5, 1.125}, weighted[] = {0, -1.5, -1.5, 1.125}, three[] = {3.0, 3.0};
    const double too_large[] = {4294967297.0};
    const uint64_t on_triangle_sheet[] = {0, 7};
    uint64_t states[10];
    double result[16];

    memset(states, 0xEE, sizeof states);
    memset(result, 0xEE, sizeof result);
    CHECK(zibrotka_build_su2_hamiltonian(triangle_sheet, 19, 0, 0, 0, true, NULL, 0, NULL, 0, NULL, 0) == -ZIBROTKA_SHEET_LENGTH);
    CHECK(zibrotka_build_su2_hamiltonian(triangle_sheet, 20, 0, 0, 0, true, three, 2, states, 1, result, 3) == -ZIBROTKA_LENGTH);
    CHECK(zibrotka_build_su2_hamiltonian(triangle_sheet, 20, 1, 0.375, -0.5, true, too_large, 1, states, 1, result, 3) == -ZIBROTKA_FLOAT);
    CHECK(zibrotka_build_su2_hamiltonian(triangle_sheet, 20, 1, 0.5, -1, false, NULL, 0, states, 10, result, 16) == -ZIBROTKA_FLOAT);
    CHECK(zibrotka_build_su2_hamiltonian(triangle_sheet, 20, 1, 0.375, -0.5, false, NULL, 0, states, 1, result, 16) == -ZIBROTKA_ROOM);
    CHECK(zibrotka_build_su2_hamiltonian(triangle_sheet, 20, 1, 0.375, -0.5, false, NULL, 0, states, 10, result, 3) == -ZIBROTKA_ROOM);
    CHECK(all_are((const uint8_t *)states, sizeof states, 0xEE) && holds_matrix(result, rows, 0));

    CHECK(zibrotka_build_su2_hamiltonian(triangle_sheet, 20, 1, 0.375, -0.5, false, NULL, 0, states, 10, result, 16) == 2);
    CHECK(holds_masks(states, on_triangle_sheet, 2) && holds_matrix(result, rows, 4));
    CHECK(zibrotka_build_su2_hamiltonian(triangle_sheet, 20, 1, 0.375, -0.5, true, three, 1, states, 2, result, 4) == 2);
    CHECK(holds_masks(states, on_triangle_sheet, 2) && holds_matrix(result, weighted, 4));
    return 0;
}

/* whether numbers stand at the front of a list of 16 entries and those behind them are as they were */
static int holds_numbers(const uint32_t *list, const uint32_t *numbers, size_t len)
{
    return memcmp(list, numbers, len * sizeof *list) == 0 && all_are((const uint8_t *)(list + len), (16 - len) * sizeof *list, 0xEE);
}

static int su2_rows(void)
{
    /* a sixth of 2^-1071 is rounded to the least float */
    const double values[] = {-0.5, -0.5, 1.125}, tiny[] = {0x1p-1071}, nothing[] = {0.0}, no_number[] = {(double)NAN};
    const double least[] = {-0x1p-1074, -0x1p-1074, 3.375}, kept[] = {-0.0, -0.0, 1.125}, weighted[] = {3.0, 3.0};
    const uint32_t starts_are[] = {0, 1, 3}, columns_are[] = {1, 0, 1}, one_row[] = {0, 0};
    const uint64_t on_triangle_sheet[] = {0, 7}, on_none[] = {0};
    uint64_t states[10];
    uint32_t starts[16], columns[16];
    double result[16];

    memset(states, 0xEE, sizeof states);
    memset(starts, 0xEE, sizeof starts);
    memset(columns, 0xEE, sizeof columns);
    memset(result, 0xEE, sizeof result);
#define ROWS(sheet, len, electric, given, weights, n, a, b, c, d)                                                                   \
    zibrotka_build_csr_su2(sheet, len, 1, electric, -0.5, given, weights, n, states, a, starts, b, columns, c, result, d)
    CHECK(ROWS(NULL, 0, 0.375, true, NULL, 0, 0, 0, 0, 0) == -ZIBROTKA_SHEET_SHORT);
    CHECK(ROWS(apart_sheet, 11, 0.375, false, NULL, 0, 10, 16, 16, 16) == -ZIBROTKA_UNREACHED);
    CHECK(ROWS(triangle_sheet, 20, 0.5, true, weighted, 2, 1, 2, 2, 2) == -ZIBROTKA_LENGTH);
    CHECK(ROWS(triangle_sheet, 20, 0.5, false, NULL, 0, 10, 16, 16, 16) == -ZIBROTKA_FLOAT);
    CHECK(ROWS(triangle_sheet, 20, 0.375, true, no_number, 1, 1, 2, 2, 2) == -ZIBROTKA_FLOAT);
    CHECK(ROWS(triangle_sheet, 20, 0.375, false, NULL, 0, 1, 3, 3, 3) == -ZIBROTKA_ROOM);
    CHECK(ROWS(triangle_sheet, 20, 0.375, false, NULL, 0, 2, 2, 3, 3) == -ZIBROTKA_ROOM);
    CHECK(ROWS(triangle_sheet, 20, 0.375, false, NULL, 0, 2, 3, 2, 3) == -ZIBROTKA_ROOM);
    CHECK(ROWS(triangle_sheet, 20, 0.375, false, NULL, 0, 2, 3, 3, 2) == -ZIBROTKA_ROOM);
    CHECK(all_are((const uint8_t *)states, sizeof states, 0xEE) && holds_numbers(starts, one_row, 0));
    CHECK(holds_numbers(columns, one_row, 0) && holds_matrix(result, values, 0));

    CHECK(ROWS(triangle_sheet, 20, 0.375, false, no_number, 1, 2, 3, 3, 3) == 3);
    CHECK(holds_masks(states, on_triangle_sheet, 2) && holds_numbers(starts, starts_are, 3));
    CHECK(holds_numbers(columns, columns_are, 3) && holds_matrix(result, values, 3));
    CHECK(ROWS(triangle_sheet, 20, 0.375, true, nothing, 1, 10, 16, 16, 16) == 3);
    CHECK(holds_numbers(starts, starts_are, 3) && holds_numbers(columns, columns_are, 3) && holds_matrix(result, kept, 3));
    CHECK(zibrotka_build_csr_su2(triangle_sheet, 20, 3, 1.125, -0.5 / 3, true, tiny, 1, states, 2, starts, 3, columns, 3, result, 3) == 3);
    CHECK(holds_matrix(result, least, 3));
    memset(states, 0xEE, sizeof states);
    memset(starts, 0xEE, sizeof starts);
    memset(result, 0xEE, sizeof result);
    CHECK(ROWS(point_sheet, 11, 0.375, true, NULL, 0, 10, 16, 0, 0) == 0);
    CHECK(holds_masks(states, on_none, 1) && holds_numbers(starts, one_row, 2) && holds_matrix(result, values, 0));
#undef ROWS
    return 0;
}

static int rows(void)
{
    /* a sixth of 2^-1071 is rounded to the least float, since the product with 0.5 comes first */
    const double values[] = {1.5, -0.5, -0.5, -0.5, -0.5, 1.5}, least[] = {4.5, -0x1p-1074, -0x1p-1074, -0x1p-1074, -0x1p-1074, 4.5};
    const double kept[] = {1.5, -0.0, -0.0, -0.0, -0.0, 1.5}, tiny[] = {0x1p-1071}, nothing[] = {0.0}, no_number[] = {(double)NAN, 1};
    const uint32_t starts_are[] = {0, 2, 4, 6}, columns_are[] = {0, 1, 0, 2, 1, 2}, one_row[] = {0, 0};
    int32_t states[16];
    uint32_t starts[16], columns[16];
    double result[16];

    memset(states, 0xEE, sizeof states);
    memset(starts, 0xEE, sizeof starts);
    memset(columns, 0xEE, sizeof columns);
    memset(result, 0xEE, sizeof result);
#define ROWS(sheet, len, electric, given, weights, n, a, b, c, d)                                                                   \
    zibrotka_build_csr(sheet, len, 1, electric, -1, given, weights, n, states, a, starts, b, columns, c, result, d)
    CHECK(ROWS(triangle_sheet, 19, 0.5, false, NULL, 0, 16, 16, 16, 16) == -ZIBROTKA_SHEET_LENGTH);
    CHECK(ROWS(triangle_sheet, 20, 0.375, true, no_number, 2, 8, 3, 5, 5) == -ZIBROTKA_LENGTH);
    CHECK(ROWS(triangle_sheet, 20, 0.375, false, NULL, 0, 16, 16, 16, 16) == -ZIBROTKA_FLOAT);
    CHECK(ROWS(triangle_sheet, 20, 0.5, true, no_number, 1, 8, 3, 5, 5) == -ZIBROTKA_FLOAT);
    CHECK(ROWS(triangle_sheet, 20, 0.5, false, NULL, 0, 8, 4, 6, 6) == -ZIBROTKA_ROOM);
    CHECK(ROWS(triangle_sheet, 20, 0.5, false, NULL, 0, 9, 3, 6, 6) == -ZIBROTKA_ROOM);
    CHECK(ROWS(triangle_sheet, 20, 0.5, false, NULL, 0, 9, 4, 5, 6) == -ZIBROTKA_ROOM);
    CHECK(ROWS(triangle_sheet, 20, 0.5, false, NULL, 0, 9, 4, 6, 5) == -ZIBROTKA_ROOM);
    CHECK(as_it_was(states, 16) && holds_numbers(starts, one_row, 0) && holds_numbers(columns, one_row, 0) && holds_matrix(result, values, 0));

    CHECK(ROWS(triangle_sheet, 20, 0.5, false, no_number, 2, 9, 4, 6, 6) == 6);
    CHECK(begins_with_the_basis(states, 16) && holds_numbers(starts, starts_are, 4));
    CHECK(holds_numbers(columns, columns_are, 6) && holds_matrix(result, values, 6));
    CHECK(ROWS(triangle_sheet, 20, 0.5, true, nothing, 1, 16, 16, 16, 16) == 6);
    CHECK(holds_numbers(columns, columns_are, 6) && holds_matrix(result, kept, 6));
    CHECK(zibrotka_build_csr(triangle_sheet, 20, 3, 1.5, -1.0 / 3, true, tiny, 1, states, 9, starts, 4, columns, 6, result, 6) == 6);
    CHECK(holds_matrix(result, least, 6));
    memset(starts, 0xEE, sizeof starts);
    CHECK(ROWS(point_sheet, 11, 0.5, true, NULL, 0, 0, 16, 0, 0) == 0);
    CHECK(holds_numbers(starts, one_row, 2));
#undef ROWS
    return 0;
}

static int su2_products(void)
{
    const double vector[] = {3, 5}, product[] = {-2.5, 4.125}, doubled[] = {-5, 2.625}, two[] = {2}, three[] = {1, 1, 1};
    const double too_far[] = {3, 0x1.0000000000001p32}, no_number[] = {(double)NAN, 5}, ends[] = {-0x1p32, 0x1p32};
    const double far[] = {-0x1p31, 0x1p31 + 1.125 * 0x1p32}, one[] = {1}, nothing[] = {0};
    const uint64_t on_triangle_sheet[] = {0, 7}, on_none[] = {0};
    uint64_t states[10];
    double result[16];

    memset(states, 0xEE, sizeof states);
    memset(result, 0xEE, sizeof result);
#define PRODUCT(sheet, len, electric, given, weights, n, vector, m, a, b)                                                           \
    zibrotka_su2_hamiltonian_matvec(sheet, len, 1, electric, -0.5, given, weights, n, vector, m, states, a, result, b)
    CHECK(PRODUCT(NULL, 0, 0.5, true, NULL, 0, NULL, 0, 0, 0) == -ZIBROTKA_SHEET_SHORT);
    CHECK(PRODUCT(apart_sheet, 11, 0.375, false, NULL, 0, vector, 2, 10, 16) == -ZIBROTKA_UNREACHED);
    CHECK(PRODUCT(triangle_sheet, 20, 0.5, false, NULL, 0, three, 3, 1, 1) == -ZIBROTKA_LENGTH);
    CHECK(PRODUCT(triangle_sheet, 20, 0.5, false, NULL, 0, no_number, 1, 1, 1) == -ZIBROTKA_LENGTH);
    CHECK(PRODUCT(triangle_sheet, 20, 0.5, true, three, 2, no_number, 2, 1, 1) == -ZIBROTKA_LENGTH);
    CHECK(PRODUCT(triangle_sheet, 20, 0.5, false, NULL, 0, vector, 2, 1, 1) == -ZIBROTKA_FLOAT);
    CHECK(PRODUCT(triangle_sheet, 20, 0.375, true, no_number, 1, vector, 2, 1, 1) == -ZIBROTKA_FLOAT);
    CHECK(PRODUCT(triangle_sheet, 20, 0.375, false, NULL, 0, no_number, 2, 1, 1) == -ZIBROTKA_FLOAT);
    CHECK(PRODUCT(triangle_sheet, 20, 0.375, false, NULL, 0, too_far, 2, 10, 16) == -ZIBROTKA_FLOAT);
    CHECK(PRODUCT(triangle_sheet, 20, 0.375, false, NULL, 0, vector, 2, 1, 2) == -ZIBROTKA_ROOM);
    CHECK(PRODUCT(triangle_sheet, 20, 0.375, false, NULL, 0, vector, 2, 2, 1) == -ZIBROTKA_ROOM);
    CHECK(all_are((const uint8_t *)states, sizeof states, 0xEE) && holds_matrix(result, product, 0));

    CHECK(PRODUCT(triangle_sheet, 20, 0.375, false, no_number, 1, vector, 2, 2, 2) == 2);
    CHECK(holds_masks(states, on_triangle_sheet, 2) && holds_matrix(result, product, 2));
    CHECK(PRODUCT(triangle_sheet, 20, 0.375, true, two, 1, vector, 2, 10, 16) == 2 && holds_matrix(result, doubled, 2));
    CHECK(PRODUCT(triangle_sheet, 20, 0.375, false, NULL, 0, ends, 2, 10, 16) == 2 && holds_matrix(result, far, 2));
    memset(states, 0xEE, sizeof states);
    memset(result, 0xEE, sizeof result);
    CHECK(PRODUCT(point_sheet, 11, 0.375, true, NULL, 0, one, 1, 1, 1) == 1);
    CHECK(holds_masks(states, on_none, 1) && holds_matrix(result, nothing, 1));
#undef PRODUCT
    return 0;
}

/* by the set of the path's edges, or by its passes modulo two */
typedef int64_t su2_loop(const uint8_t *, size_t, const double *, size_t, const uint8_t *, size_t, uint64_t *, size_t, double *);

static int su2_expectations(su2_loop *call, double twice_over)
{
    const double vector[] = {3, 5}, too_far[] = {3, 0x1.0000000000001p32}, no_number[] = {(double)NAN, 5, 5};
    const uint8_t around[] = {0, 1, 2}, twice[] = {1, 1}, back[] = {0, 0}, thrice[] = {1, 1, 1}, two[] = {0, 2}, outside[] = {0, 3};
    const uint64_t on_triangle_sheet[] = {0, 7};
    uint64_t states[10];
    double expectation[2];

    memset(states, 0xEE, sizeof states);
    memset(expectation, 0xEE, sizeof expectation);
#define LOOP(sheet, len, vector, m, path, n, a) call(sheet, len, vector, m, path, n, states, a, expectation)
    CHECK(LOOP(NULL, 0, no_number, 3, outside, 2, 0) == -ZIBROTKA_SHEET_SHORT);
    CHECK(LOOP(apart_sheet, 11, vector, 2, NULL, 0, 10) == -ZIBROTKA_UNREACHED);
    CHECK(LOOP(triangle_sheet, 20, no_number, 3, outside, 2, 1) == -ZIBROTKA_LENGTH);
    CHECK(LOOP(triangle_sheet, 20, no_number, 1, outside, 2, 1) == -ZIBROTKA_LENGTH);
    CHECK(LOOP(triangle_sheet, 20, no_number, 2, outside, 2, 1) == -ZIBROTKA_NUMBER);
    CHECK(LOOP(triangle_sheet, 20, no_number, 2, around, 3, 1) == -ZIBROTKA_FLOAT);
    CHECK(LOOP(triangle_sheet, 20, too_far, 2, around, 3, 10) == -ZIBROTKA_FLOAT);
    CHECK(LOOP(triangle_sheet, 20, vector, 2, around, 3, 1) == -ZIBROTKA_ROOM);
    CHECK(all_are((const uint8_t *)states, sizeof states, 0xEE) && all_are((const uint8_t *)expectation, sizeof expectation, 0xEE));

    CHECK(LOOP(triangle_sheet, 20, vector, 2, around, 3, 2) == 0 && expectation[0] == -16);
    CHECK(holds_masks(states, on_triangle_sheet, 2));
    CHECK(LOOP(triangle_sheet, 20, vector, 2, NULL, 0, 10) == 0 && expectation[0] == 34);
    CHECK(LOOP(triangle_sheet, 20, vector, 2, two, 2, 10) == 0 && expectation[0] == 34);
    CHECK(LOOP(triangle_sheet, 20, vector, 2, twice, 2, 10) == 0 && expectation[0] == twice_over);
    CHECK(LOOP(triangle_sheet, 20, vector, 2, back, 2, 10) == 0 && expectation[0] == twice_over);
    CHECK(LOOP(triangle_sheet, 20, vector, 2, thrice, 3, 10) == 0 && expectation[0] == -16);
    CHECK(LOOP(point_sheet, 11, vector + 1, 1, NULL, 0, 1) == 0 && expectation[0] == 25);
    CHECK(all_are((const uint8_t *)(expectation + 1), sizeof *expectation, 0xEE));
#undef LOOP
    return 0;
}

static int counts(void)
{
    CHECK(zibrotka_count_states(NULL, 0) == -ZIBROTKA_SHEET_SHORT && zibrotka_su2_count_states(NULL, 0) == -ZIBROTKA_SHEET_SHORT);
    CHECK(zibrotka_count_entries(NULL, 0) == -ZIBROTKA_SHEET_SHORT && zibrotka_su2_count_entries(NULL, 0) == -ZIBROTKA_SHEET_SHORT);
    CHECK(zibrotka_count_states(apart_sheet, 11) == -ZIBROTKA_UNREACHED && zibrotka_su2_count_states(apart_sheet, 11) == -ZIBROTKA_UNREACHED);
    CHECK(zibrotka_count_states(triangle_sheet, 20) == 3 && zibrotka_su2_count_states(triangle_sheet, 20) == 2);
    /* two of three states have a diagonal, and the triangle joins the middle one to both others, each way */
    CHECK(zibrotka_count_entries(triangle_sheet, 20) == 6 && zibrotka_su2_count_entries(triangle_sheet, 20) == 3);
    CHECK(zibrotka_count_states(point_sheet, 11) == 1 && zibrotka_su2_count_states(point_sheet, 11) == 1);
    CHECK(zibrotka_count_entries(point_sheet, 11) == 0 && zibrotka_su2_count_entries(point_sheet, 11) == 0);
    return 0;
}

static int products(void)
{
    /* (1 2, 0 -3) times (5, 7), a column twice and out of order */
    const uint32_t starts[] = {0, 3, 4}, columns[] = {1, 0, 1, 1}, falling[] = {0, 5, 4}, high[] = {1, 0, 2, 1}, empty[] = {0};
    const double values[] = {1, 1, 1, -3}, vector[] = {5, 7}, product[] = {19, -21};
    const double too_large[] = {1, 1, 1, 0x1.0000000000001p80}, too_far[] = {5, 0x1.0000000000001p32};
    double result[16];

    memset(result, 0xEE, sizeof result);
    CHECK(zibrotka_matvec(NULL, 0, NULL, 0, NULL, 0, NULL, 0, NULL, 0) == -ZIBROTKA_LENGTH);
    CHECK(zibrotka_matvec(starts, 2, columns, 4, values, 4, vector, 2, result, 16) == -ZIBROTKA_LENGTH);
    CHECK(zibrotka_matvec(starts, 3, columns, 4, values, 3, vector, 2, result, 16) == -ZIBROTKA_LENGTH);
    CHECK(zibrotka_matvec(falling, 3, columns, 4, too_large, 4, vector, 2, result, 1) == -ZIBROTKA_NUMBER);
    CHECK(zibrotka_matvec(starts, 3, high, 4, values, 4, vector, 2, result, 16) == -ZIBROTKA_NUMBER);
    CHECK(zibrotka_matvec(starts, 3, columns, 3, values, 3, vector, 2, result, 16) == -ZIBROTKA_NUMBER);
    CHECK(zibrotka_matvec(starts, 3, columns, 4, too_large, 4, vector, 2, result, 1) == -ZIBROTKA_FLOAT);
    CHECK(zibrotka_matvec(starts, 3, columns, 4, values, 4, too_far, 2, result, 1) == -ZIBROTKA_FLOAT);
    CHECK(zibrotka_matvec(starts, 3, columns, 4, values, 4, vector, 2, result, 1) == -ZIBROTKA_ROOM);
    CHECK(holds_matrix(result, product, 0));

    CHECK(zibrotka_matvec(starts, 3, columns, 4, values, 4, vector, 2, result, 2) == 0);
    CHECK(holds_matrix(result, product, 2));
    CHECK(zibrotka_matvec(empty, 1, NULL, 0, NULL, 0, NULL, 0, NULL, 0) == 0);
    return 0;
}

static int amplitudes(void)
{
    const double amplitudes[] = {1, 2, 3, 4}, product[] = {0.5, -2, 3.5}, weighted[] = {-1.5, -6, 1.5}, squares[] = {10, 10, 10};
    const double three[] = {3.0, 3.0}, no_number[] = {1, (double)NAN, 3}, most[] = {0x1p32, -0x1p32, 0x1p-1074};
    const double too_far[] = {1, 2, 0x1.0000000000001p32}, largest[] = {0x1p64, 0x1p64, 0x1p64}, nothing[] = {0.0};
    const uint8_t edges[] = {0, 1, 2, 3};
    const int8_t around[] = {1, -1, 1, 1}, still[] = {1, 0, 1}, twice[] = {2, -1, 1};
    int32_t states[16];
    double result[16], expectation, before;

    memset(states, 0xEE, sizeof states);
    memset(result, 0xEE, sizeof result);
    memset(&expectation, 0xEE, sizeof expectation);
    memset(&before, 0xEE, sizeof before);
#define APPLIED(sheet, len, electric, given, weights, n, v, m, a, b)                                                                \
    zibrotka_hamiltonian_matvec(sheet, len, 1, electric, -1, given, weights, n, v, m, states, a, result, b)
    CHECK(APPLIED(NULL, 0, 0.5, true, NULL, 0, NULL, 0, 0, 0) == -ZIBROTKA_SHEET_SHORT);
    CHECK(APPLIED(apart_sheet, 11, 0.5, false, NULL, 0, amplitudes, 1, 16, 16) == -ZIBROTKA_UNREACHED);
    CHECK(APPLIED(triangle_sheet, 20, 0.375, true, three, 2, no_number, 3, 8, 2) == -ZIBROTKA_LENGTH);
    CHECK(APPLIED(triangle_sheet, 20, 0.375, true, no_number + 1, 1, amplitudes, 2, 8, 2) == -ZIBROTKA_LENGTH);
    CHECK(APPLIED(triangle_sheet, 20, 0.5, false, NULL, 0, amplitudes, 4, 16, 16) == -ZIBROTKA_LENGTH);
    CHECK(APPLIED(triangle_sheet, 20, 0.375, false, NULL, 0, amplitudes, 3, 8, 2) == -ZIBROTKA_FLOAT);
    CHECK(APPLIED(triangle_sheet, 20, 0.5, true, no_number + 1, 1, amplitudes, 3, 16, 16) == -ZIBROTKA_FLOAT);
    CHECK(APPLIED(triangle_sheet, 20, 0.5, false, NULL, 0, no_number, 3, 8, 2) == -ZIBROTKA_FLOAT);
    CHECK(APPLIED(triangle_sheet, 20, 0.5, false, NULL, 0, too_far, 3, 16, 16) == -ZIBROTKA_FLOAT);
    CHECK(APPLIED(triangle_sheet, 20, 0.5, false, NULL, 0, amplitudes, 3, 8, 16) == -ZIBROTKA_ROOM);
    CHECK(APPLIED(triangle_sheet, 20, 0.5, false, NULL, 0, amplitudes, 3, 16, 2) == -ZIBROTKA_ROOM);
#define SQUARES(sheet, len, v, m, a, b) zibrotka_electric_field_sq(sheet, len, v, m, states, a, result, b)
    CHECK(SQUARES(NULL, 0, NULL, 0, 0, 0) == -ZIBROTKA_SHEET_SHORT);
    CHECK(SQUARES(triangle_sheet, 20, no_number, 2, 8, 2) == -ZIBROTKA_LENGTH);
    CHECK(SQUARES(triangle_sheet, 20, no_number, 3, 8, 2) == -ZIBROTKA_FLOAT);
    CHECK(SQUARES(triangle_sheet, 20, amplitudes, 3, 8, 16) == -ZIBROTKA_ROOM);
    CHECK(SQUARES(triangle_sheet, 20, amplitudes, 3, 16, 2) == -ZIBROTKA_ROOM);
#define LOOP(sheet, len, v, m, first, k, directions, l, a)                                                                          \
    zibrotka_wilson_loop(sheet, len, v, m, edges + first, k, directions, l, states, a, &expectation)
    CHECK(LOOP(NULL, 0, NULL, 0, 0, 0, NULL, 0, 0) == -ZIBROTKA_SHEET_SHORT);
    CHECK(LOOP(triangle_sheet, 20, no_number, 2, 3, 1, still + 1, 1, 8) == -ZIBROTKA_LENGTH);
    CHECK(LOOP(triangle_sheet, 20, amplitudes, 3, 0, 3, around, 4, 16) == -ZIBROTKA_LENGTH);
    CHECK(LOOP(triangle_sheet, 20, no_number, 3, 1, 3, around, 3, 8) == -ZIBROTKA_NUMBER);
    CHECK(LOOP(triangle_sheet, 20, no_number, 3, 0, 3, still, 3, 8) == -ZIBROTKA_NUMBER);
    CHECK(LOOP(triangle_sheet, 20, amplitudes, 3, 0, 3, twice, 3, 16) == -ZIBROTKA_NUMBER);
    CHECK(LOOP(triangle_sheet, 20, too_far, 3, 0, 3, around, 3, 8) == -ZIBROTKA_FLOAT);
    CHECK(LOOP(triangle_sheet, 20, amplitudes, 3, 0, 3, around, 3, 8) == -ZIBROTKA_ROOM);
    CHECK(as_it_was(states, 16) && holds_matrix(result, product, 0) && memcmp(&expectation, &before, sizeof before) == 0);

    CHECK(APPLIED(triangle_sheet, 20, 0.5, false, no_number, 3, amplitudes, 3, 9, 3) == 3);
    CHECK(begins_with_the_basis(states, 16) && holds_matrix(result, product, 3));
    CHECK(APPLIED(triangle_sheet, 20, 0.5, true, three, 1, amplitudes, 3, 16, 16) == 3);
    CHECK(begins_with_the_basis(states, 16) && holds_matrix(result, weighted, 3));
    memset(states, 0xEE, sizeof states);
    CHECK(SQUARES(triangle_sheet, 20, amplitudes, 3, 9, 3) == 3);
    CHECK(begins_with_the_basis(states, 16) && holds_matrix(result, squares, 3));
    CHECK(SQUARES(triangle_sheet, 20, most, 3, 16, 16) == 3 && holds_matrix(result, largest, 3));
    memset(states, 0xEE, sizeof states);
    CHECK(LOOP(triangle_sheet, 20, amplitudes, 3, 0, 3, around, 3, 9) == 0);
    CHECK(begins_with_the_basis(states, 16) && expectation == 8);
    /* one step ends in no state; no step leaves each state where it is */
    CHECK(LOOP(triangle_sheet, 20, amplitudes, 3, 0, 1, around, 1, 9) == 0 && expectation == 0);
    CHECK(LOOP(triangle_sheet, 20, amplitudes, 3, 0, 0, NULL, 0, 9) == 0 && expectation == 14);
    memset(result, 0xEE, sizeof result);
    CHECK(APPLIED(point_sheet, 11, 0.5, true, NULL, 0, amplitudes, 1, 0, 16) == 1 && holds_matrix(result, nothing, 1));
    CHECK(SQUARES(point_sheet, 11, amplitudes, 1, 0, 0) == 0 && holds_matrix(result, nothing, 1));
    CHECK(LOOP(point_sheet, 11, amplitudes + 2, 1, 0, 0, NULL, 0, 0) == 0 && expectation == 9);
#undef APPLIED
#undef SQUARES
#undef LOOP
    return 0;
}

/* every byte of a list is plain ASCII, and none is a line feed */
static int all_plain(const uint8_t *list, size_t len)
{
    for (size_t i = 0; i < len; i++)
        if (list[i] < 32 || list[i] > 126)
            return 0;
    return 1;
}

static int texts(void)
{
    const char *leaves = "a shifted edge leaves -L to L";
    uint8_t text[ZIBROTKA_TEXT_BYTES + 8];

    CHECK(zibrotka_release() == ZIBROTKA_RELEASE);

    memset(text, 0xEE, sizeof text);
    CHECK(zibrotka_refusal_text(0, text, sizeof text) == -ZIBROTKA_NUMBER);
    CHECK(zibrotka_refusal_text(18, text, sizeof text) == -ZIBROTKA_NUMBER);
    CHECK(zibrotka_refusal_text(UINT64_C(4294967297), text, sizeof text) == -ZIBROTKA_NUMBER);
    CHECK(zibrotka_refusal_text(UINT64_MAX, NULL, 0) == -ZIBROTKA_NUMBER);
    CHECK(zibrotka_refusal_text(1, NULL, 0) == -ZIBROTKA_ROOM);
    CHECK(all_are(text, sizeof text, 0xEE));

    for (uint64_t number = 1; number <= ZIBROTKA_NOT_LISTED; number++) {
        memset(text, 0xEE, sizeof text);
        int64_t size = zibrotka_refusal_text(number, text, ZIBROTKA_TEXT_BYTES);
        CHECK(0 < size && size <= ZIBROTKA_TEXT_BYTES);
        CHECK(all_plain(text, (size_t)size) && all_are(text + size, sizeof text - (size_t)size, 0xEE));
        memset(text, 0xEE, sizeof text);
        CHECK(zibrotka_refusal_text(number, text, (size_t)size - 1) == -ZIBROTKA_ROOM);
        CHECK(all_are(text, sizeof text, 0xEE));
        CHECK(zibrotka_refusal_text(number, text, (size_t)size) == size);
    }
    CHECK(zibrotka_refusal_text(ZIBROTKA_BAND, text, sizeof text) == (int64_t)strlen(leaves));
    CHECK(memcmp(text, leaves, strlen(leaves)) == 0);
    return 0;
}

int main(void)
{
    if (making() || reading() || triangle_edges() || pentachora() || trees() || loops() || laws() || law_findings() || listings() || places() ||
        place_findings() || shifts() || shift_findings() || triangle_shifts() || masks() || couplings() || dense() || su2_dense() ||
        rows() || su2_rows() || su2_products() ||
        su2_expectations(zibrotka_su2_wilson_loop, -16) || su2_expectations(zibrotka_su2_wilson_passes, 34) || counts() ||
        products() || amplitudes() || texts())
        return 1;
    printf("C: %d checks passed\n", passed);
    return 0;
}
