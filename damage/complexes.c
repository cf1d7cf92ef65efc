#include "complexes.h"

#include "random.h"

#include <string.h>

uint64_t power(uint64_t base, unsigned exponent)
{
    const uint64_t most = UINT64_C(1) << 40;
    uint64_t result = 1;
    for (unsigned i = 0; i < exponent; i++) {
        if (result > most / base)
            return most;
        result *= base;
    }
    return result;
}

/* ---- making */

static void swap(uint8_t *list, size_t size, size_t i, size_t j)
{
    uint8_t kept[3];
    memcpy(kept, list + size * i, size);
    memmove(list + size * i, list + size * j, size);
    memcpy(list + size * j, kept, size);
}

static void shuffle(uint8_t *list, size_t size, size_t count)
{
    for (size_t i = count; i > 1; i--)
        swap(list, size, i - 1, below(i));
}

static bool add_edge(struct complex *c, unsigned a, unsigned b)
{
    unsigned low = a < b ? a : b, high = a < b ? b : a;
    if (a == b || c->edges == MOST_EDGES || edge_number(c, low, high) >= 0)
        return false;
    c->edge[2 * c->edges] = (uint8_t)low;
    c->edge[2 * c->edges + 1] = (uint8_t)high;
    c->edges++;
    return true;
}

/* A random tree on the vertices in a random order, then random edges until so many are free or there is no room. */
static void make_edges(struct complex *c, unsigned free_edges)
{
    uint8_t order[MOST_VERTICES];
    for (unsigned i = 0; i < c->vertices; i++)
        order[i] = (uint8_t)i;
    shuffle(order, 1, c->vertices);
    unsigned reach = 1 + (unsigned)below(c->vertices);
    for (unsigned i = 1; i < c->vertices; i++)
        add_edge(c, order[i], order[i - 1 - below(i < reach ? i : reach)]);
    for (unsigned tries = 0; tries < 8 * free_edges && free_edges > 0; tries++) {
        unsigned a = (unsigned)below(c->vertices), b = (unsigned)below(c->vertices);
        free_edges -= add_edge(c, a, b);
    }
    shuffle(c->edge, 2, c->edges);
}

/* Some or all of the triangles whose edges are there. */
static void make_triangles(struct complex *c)
{
    uint64_t beside[MOST_VERTICES] = {0};
    uint64_t left_out = one_in(2) ? 0 : 1 + below(4);
    for (unsigned e = 0; e < c->edges; e++)
        beside[c->edge[2 * e]] |= UINT64_C(1) << c->edge[2 * e + 1];
    for (unsigned e = 0; e < c->edges; e++) {
        unsigned a = c->edge[2 * e], b = c->edge[2 * e + 1];
        for (unsigned third = b + 1; third < c->vertices; third++) {
            if (!(beside[a] & beside[b] & (UINT64_C(1) << third)) || c->triangles == MOST_TRIANGLES || below(5) < left_out)
                continue;
            memcpy(c->triangle + 3 * c->triangles, (uint8_t[]){(uint8_t)a, (uint8_t)b, (uint8_t)third}, 3);
            c->triangles++;
        }
    }
    shuffle(c->triangle, 3, c->triangles);
}

/* The largest truncation with at most so many candidates, or a smaller one; now and then one that has too many. */
static unsigned some_lambda(unsigned free_edges, uint64_t candidates)
{
    unsigned largest = 0;
    while (largest < MOST_LAMBDA && power(2 * largest + 3, free_edges) <= candidates)
        largest++;
    if (one_in(16))
        return largest + 1 < MOST_LAMBDA ? largest + 1 : MOST_LAMBDA;
    if (one_in(16))
        return (unsigned)below(MOST_LAMBDA + 1);
    return one_in(2) ? largest : (unsigned)below(largest + 1);
}

void make_complex(struct complex *c, bool u1, uint64_t candidates)
{
    static const unsigned most[] = {4, 6, 8, 12, 64};
    *c = (struct complex){.vertices = 1 + (unsigned)below(most[below(5)])};
    unsigned most_free = 0;
    while (most_free < 52 && power(u1 ? 3 : 2, most_free + 1) <= candidates)
        most_free++;
    make_edges(c, one_in(32) ? 52 : (unsigned)below(most_free + 1));
    make_triangles(c);
    if (u1)
        c->lambda = some_lambda(c->edges - (c->vertices - 1), candidates);
    else
        c->lambda = (unsigned)below(one_in(2) ? 3 : MOST_LAMBDA + 1);
}

void make_longest(struct complex *c)
{
    *c = (struct complex){.vertices = 62, .lambda = 511};
    for (unsigned i = 0; i + 1 < c->vertices; i++)
        add_edge(c, i, i + 1);
    add_edge(c, 0, 2);
    add_edge(c, 2, 4);
    make_triangles(c);
}

size_t write_sheet(const struct complex *c, uint8_t *bytes)
{
    const uint8_t head[11] = {'G', 'L', 'S', 1, 0, (uint8_t)c->vertices, (uint8_t)c->edges, (uint8_t)c->triangles, (uint8_t)(c->triangles >> 8),
                              (uint8_t)c->lambda, (uint8_t)(c->lambda >> 8)};
    memcpy(bytes, head, 11);
    memcpy(bytes + 11, c->edge, 2 * c->edges);
    memcpy(bytes + 11 + 2 * c->edges, c->triangle, 3 * c->triangles);
    return 11 + 2 * c->edges + 3 * c->triangles;
}

/* ---- damaging */

static uint8_t some_byte(void)
{
    static const uint8_t odd[] = {0, 1, 2, 63, 64, 65, 127, 128, 254, 255};
    return one_in(2) ? odd[below(sizeof odd)] : (uint8_t)random_bits();
}

static size_t damage_once(uint8_t *bytes, size_t len)
{
    size_t front = len < 11 ? len : 11, place = below(len), other = below(len > 14 ? len - 14 : 0);
    switch (below(8)) {
    case 0: /* cut */
        return below(len + 1);
    case 1: /* lengthened, now and then by much */
        for (size_t more = 1 + below(one_in(8) ? LONGEST - len : 4); more > 0 && len < LONGEST; more--)
            bytes[len++] = some_byte();
        return len;
    case 2: /* a count, the truncation or the mark */
        if (front > 0)
            bytes[place % front] = some_byte();
        return len;
    case 3: /* a byte off by one */
        if (len > 0)
            bytes[place] += one_in(2) ? 1 : 255;
        return len;
    case 4: /* two bytes exchanged */
        if (len > 0)
            swap(bytes, 1, place, below(len));
        return len;
    case 5: /* one edge or triangle over another */
        if (len > 14)
            memmove(bytes + 11 + other, bytes + 11 + below(len - 14), 3);
        return len;
    default: /* any byte */
        if (len > 0)
            bytes[place] = some_byte();
        return len;
    }
}

size_t damage_bytes(uint8_t *bytes, size_t len)
{
    if (one_in(16)) { /* nothing but random bytes, perhaps behind a right mark */
        len = below(one_in(4) ? LONGEST : 64);
        for (size_t i = one_in(2) ? 0 : 5; i < len; i++)
            bytes[i] = some_byte();
        return len;
    }
    for (uint64_t faults = 1 + below(3); faults > 0; faults--)
        len = damage_once(bytes, len);
    return len;
}

/* ---- judging */

int edge_number(const struct complex *c, unsigned a, unsigned b)
{
    for (unsigned e = 0; e < c->edges; e++)
        if (c->edge[2 * e] == a && c->edge[2 * e + 1] == b)
            return (int)e;
    return -1;
}

static bool twice(const uint8_t *list, size_t size, size_t count)
{
    for (size_t i = 0; i < count; i++)
        for (size_t j = 0; j < i; j++)
            if (memcmp(list + size * i, list + size * j, size) == 0)
                return true;
    return false;
}

static bool bad_edges(const struct complex *c)
{
    for (unsigned e = 0; e < c->edges; e++)
        if (c->edge[2 * e] >= c->edge[2 * e + 1] || c->edge[2 * e + 1] >= c->vertices)
            return true;
    return twice(c->edge, 2, c->edges);
}

static bool bad_triangles(const struct complex *c)
{
    for (unsigned i = 0; i < c->triangles; i++) {
        const uint8_t *t = c->triangle + 3 * i;
        if (edge_number(c, t[0], t[1]) < 0 || edge_number(c, t[0], t[2]) < 0 || edge_number(c, t[1], t[2]) < 0)
            return true;
    }
    return twice(c->triangle, 3, c->triangles);
}

static bool unreached(const struct complex *c)
{
    bool seen[256] = {true};
    unsigned reached = 1;
    for (bool more = true; more;) {
        more = false;
        for (unsigned e = 0; e < c->edges; e++) {
            unsigned a = c->edge[2 * e], b = c->edge[2 * e + 1];
            if (seen[a] != seen[b]) {
                seen[a] = seen[b] = more = true;
                reached++;
            }
        }
    }
    return reached < c->vertices;
}

unsigned judge_lists(uint64_t vertices, const uint8_t *edges, size_t edges_len, const uint8_t *triangles, size_t triangles_len, uint64_t lambda,
                     struct complex *c)
{
    if (vertices < 1 || vertices > MOST_VERTICES || edges_len / 2 > MOST_EDGES || triangles_len / 3 > MOST_TRIANGLES)
        return 4;
    if (lambda > MOST_LAMBDA)
        return 5;
    if (edges_len % 2 != 0 || triangles_len % 3 != 0)
        return 6;
    *c = (struct complex){(unsigned)vertices, (unsigned)(edges_len / 2), (unsigned)(triangles_len / 3), (unsigned)lambda, {0}, {0}};
    if (edges_len > 0)
        memcpy(c->edge, edges, edges_len);
    if (triangles_len > 0)
        memcpy(c->triangle, triangles, triangles_len);
    return bad_edges(c) ? 7 : bad_triangles(c) ? 8 : unreached(c) ? 9 : 0;
}

unsigned judge_sheet(const uint8_t *bytes, size_t len, struct complex *c)
{
    if (len < 11)
        return 1;
    if (memcmp(bytes, "GLS", 3) != 0)
        return 2;
    if (bytes[3] != 1 || bytes[4] != 0)
        return 3;
    size_t pairs = 2 * (size_t)bytes[6], triples = 3 * (size_t)(bytes[7] + 256 * bytes[8]);
    unsigned lambda = bytes[9] + 256u * bytes[10];
    if (bytes[5] < 1 || bytes[5] > MOST_VERTICES || pairs > 2 * MOST_EDGES || triples > 3 * MOST_TRIANGLES)
        return 4;
    if (lambda > MOST_LAMBDA)
        return 5;
    if (len != 11 + pairs + triples)
        return 6;
    return judge_lists(bytes[5], bytes + 11, pairs, bytes + 11 + pairs, triples, lambda, c);
}

bool lawful(const struct complex *c, const int32_t *value)
{
    int64_t sum[MOST_VERTICES] = {0};
    for (unsigned e = 0; e < c->edges; e++) {
        sum[c->edge[2 * e]] -= value[e];
        sum[c->edge[2 * e + 1]] += value[e];
    }
    for (unsigned v = 0; v < c->vertices; v++)
        if (sum[v] != 0)
            return false;
    return true;
}

bool find_broken(const struct complex *c, const int32_t *value, uint64_t *vertex, int64_t *excess)
{
    for (unsigned v = 0; v < c->vertices; v++) {
        int64_t ends = 0, starts = 0;
        for (unsigned e = 0; e < c->edges; e++) {
            starts += c->edge[2 * e] == v ? value[e] : 0;
            ends += c->edge[2 * e + 1] == v ? value[e] : 0;
        }
        if (ends != starts) {
            *vertex = v;
            *excess = ends - starts;
            return true;
        }
    }
    return false;
}

bool even_set(const struct complex *c, uint64_t mask)
{
    uint64_t odd = 0;
    for (unsigned e = 0; e < c->edges; e++)
        if (mask >> e & 1)
            odd ^= UINT64_C(1) << c->edge[2 * e] ^ UINT64_C(1) << c->edge[2 * e + 1];
    return odd == 0 && mask >> c->edges == 0;
}

/* ---- the tree */

/* How each vertex was reached: from which vertex, over which edge, in how many steps. */
struct reached {
    uint8_t from[MOST_VERTICES], over[MOST_VERTICES], depth[MOST_VERTICES];
};

/* The cycle of a free edge (a, b): on from b to a through the tree, as far as both ways up have not met. Answers its length. */
static unsigned find_cycle(const struct complex *c, const struct reached *r, unsigned free_edge, int8_t *cycle)
{
    unsigned a = c->edge[2 * free_edge], b = c->edge[2 * free_edge + 1], steps = 1;
    cycle[free_edge] = 1;
    while (a != b) {
        bool up_from_b = r->depth[a] < r->depth[b];
        unsigned low = up_from_b ? b : a, edge = r->over[low];
        bool leaves_low = c->edge[2 * edge] == low; /* the edge runs from low to the vertex above */
        cycle[edge] = leaves_low == up_from_b ? 1 : -1;
        *(up_from_b ? &b : &a) = r->from[low];
        steps++;
    }
    return steps;
}

void find_tree(const struct complex *c, struct tree *t)
{
    struct reached r = {{0}, {0}, {0}};
    uint8_t queue[MOST_VERTICES] = {0};
    bool seen[MOST_VERTICES] = {true}, in_tree[MOST_EDGES] = {false};
    unsigned queued = 1;
    memset(t, 0, sizeof *t);
    for (unsigned served = 0; served < queued; served++)
        for (unsigned e = 0; e < c->edges; e++) {
            uint8_t at = queue[served], a = c->edge[2 * e], b = c->edge[2 * e + 1], other = a == at ? b : a;
            if ((a != at && b != at) || seen[other])
                continue;
            seen[other] = in_tree[e] = true;
            r.from[other] = at;
            r.over[other] = (uint8_t)e;
            r.depth[other] = (uint8_t)(r.depth[at] + 1);
            t->found[queued - 1] = e;
            queue[queued++] = other;
        }
    for (unsigned e = 0; e < c->edges; e++)
        if (!in_tree[e]) {
            t->steps += find_cycle(c, &r, e, t->cycle[t->free_edges]);
            t->free_edge[t->free_edges++] = e;
        }
}

/* ---- the states */

static bool in_band(const struct complex *c, const int32_t *value)
{
    for (unsigned e = 0; e < c->edges; e++)
        if (value[e] < -(int32_t)c->lambda || value[e] > (int32_t)c->lambda)
            return false;
    return true;
}

static void add_cycle(const struct complex *c, const int8_t *cycle, int32_t times, int32_t *value)
{
    for (unsigned e = 0; e < c->edges; e++)
        value[e] += times * cycle[e];
}

uint64_t list_states(const struct complex *c, const struct tree *t, int32_t *states, size_t room)
{
    int32_t value[MOST_EDGES] = {0};
    const int32_t most = (int32_t)c->lambda;
    uint64_t n = 0, candidates = power(2 * c->lambda + 1, t->free_edges);
    for (unsigned f = 0; f < t->free_edges; f++)
        add_cycle(c, t->cycle[f], -most, value);
    for (uint64_t i = 0; i < candidates; i++) {
        if (in_band(c, value)) {
            if ((n + 1) * c->edges > room)
                return 0;
            memcpy(states + n * c->edges, value, 4 * c->edges);
            n++;
        }
        for (unsigned f = 0; f < t->free_edges; f++) { /* the next candidate, the first free edge in front */
            bool carried = value[t->free_edge[f]] == most;
            add_cycle(c, t->cycle[f], carried ? -2 * most : 1, value);
            if (!carried)
                break;
        }
    }
    return n;
}

void find_sides(const struct complex *c, uint64_t triangle, unsigned side[3])
{
    const uint8_t *t = c->triangle + 3 * triangle;
    side[0] = (unsigned)edge_number(c, t[0], t[1]);
    side[1] = (unsigned)edge_number(c, t[1], t[2]);
    side[2] = (unsigned)edge_number(c, t[0], t[2]);
}

uint64_t count_row_entries(const struct complex *c, const int32_t *states, uint64_t n)
{
    const int32_t most = (int32_t)c->lambda;
    uint64_t entries = n - 1; /* a diagonal for each state but the one that is all zeros */
    for (unsigned i = 0; i < c->triangles; i++) {
        unsigned side[3];
        find_sides(c, i, side);
        for (uint64_t k = 0; k < n; k++) {
            const int32_t *value = states + k * c->edges;
            entries += value[side[0]] < most && value[side[1]] < most && value[side[2]] > -most;
            entries += value[side[0]] > -most && value[side[1]] > -most && value[side[2]] < most;
        }
    }
    return entries;
}
