/* Complexes and sheets: made right, damaged, and judged apart from the library by what docs/SCOPE.md says. */
#ifndef COMPLEXES_H
#define COMPLEXES_H

#include <stdbool.h>
#include <stddef.h>
#include <stdint.h>

enum { MOST_VERTICES = 64, MOST_EDGES = 63, MOST_TRIANGLES = 256, MOST_LAMBDA = 1000, MOST_CANDIDATES = 1048576, LONGEST = 8192 };

struct complex {
    unsigned vertices, edges, triangles, lambda;
    uint8_t edge[2 * MOST_EDGES];
    uint8_t triangle[3 * MOST_TRIANGLES];
};

/* The spanning tree, from vertex 0 by breadth. */
struct tree {
    unsigned free_edges;                  /* how many edges are not in the tree */
    unsigned steps;                       /* the steps of all fundamental loops */
    uint32_t found[MOST_EDGES];           /* the tree edges as they are found */
    uint32_t free_edge[MOST_EDGES];       /* the others by rising number */
    int8_t cycle[MOST_EDGES][MOST_EDGES]; /* of each free edge: the lawful values that are 1 on it and 0 on the other free edges */
};

/* A random accepted complex that has, in U(1) or for the masks of Z2, about so many candidates at most. */
void make_complex(struct complex *c, bool u1, uint64_t candidates);
/* The chain whose list of states is the longest of all. */
void make_longest(struct complex *c);
/* Its sheet; answers the length. */
size_t write_sheet(const struct complex *c, uint8_t *bytes);
/* Changes, cuts or lengthens the bytes at random, at most to LONGEST; answers the new length. */
size_t damage_bytes(uint8_t *bytes, size_t len);

/* The refusal of a sheet, 1 to 9, or 0; then c is filled in. */
unsigned judge_sheet(const uint8_t *bytes, size_t len, struct complex *c);
/* The refusal of flat lists, 4 to 9, or 0; then c is filled in. */
unsigned judge_lists(uint64_t vertices, const uint8_t *edges, size_t edges_len, const uint8_t *triangles, size_t triangles_len, uint64_t lambda,
                     struct complex *c);
/* The number of the edge (a, b), or -1. */
int edge_number(const struct complex *c, unsigned a, unsigned b);
void find_tree(const struct complex *c, struct tree *t);
/* base to the power, or 2^40 where it is more than that. */
uint64_t power(uint64_t base, unsigned exponent);
/* Whether the values obey Gauss's law. */
bool lawful(const struct complex *c, const int32_t *value);
/* The lowest vertex at which they do not, and the values on the edges that end there less those on the edges that start there. Whether there
   is one. */
bool find_broken(const struct complex *c, const int32_t *value, uint64_t *vertex, int64_t *excess);
/* Whether a set of edges has an even number of them at each vertex. */
bool even_set(const struct complex *c, uint64_t mask);
/* Lists all states of U(1) in their order, by trying every candidate. Answers their number, or 0 where there are more entries than fit. */
uint64_t list_states(const struct complex *c, const struct tree *t, int32_t *states, size_t room);
/* The numbers of a triangle's edges (a,b), (b,c), (a,c). */
void find_sides(const struct complex *c, uint64_t triangle, unsigned side[3]);
/* How many entries the row lists over these states have. */
uint64_t count_row_entries(const struct complex *c, const int32_t *states, uint64_t n);

#endif
