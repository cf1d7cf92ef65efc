/* Random numbers that depend on a seed and on the number of a call alone. */
#ifndef RANDOM_H
#define RANDOM_H

#include <stdbool.h>
#include <stdint.h>

void random_begin(uint64_t seed, uint64_t call);
uint64_t random_bits(void);
/* From 0 to n - 1; 0 where n is 0. */
uint64_t below(uint64_t n);
/* True once in n times. */
bool one_in(uint64_t n);

#endif
