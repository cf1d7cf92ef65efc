/* What a call is given besides sheets: lengths, numbers and floats, each right or, once in so many times, damaged. */
#ifndef CHOICES_H
#define CHOICES_H

#include "memory.h"

#define RANGE 4294967296.0                  /* 2^32 */
#define ROW_RANGE 1208925819614629174706176.0 /* 2^80 */

/* A thing of the call is damaged once in so many times; 0: never. */
extern unsigned fault;
/* No list that is lent gets more bytes. */
extern size_t most_bytes;

bool faulty(void);
/* How many entries a list for a result of so many gets: enough, or damaged too few. */
size_t room(uint64_t exact, size_t size);
/* How many entries a list to read gets that must have just so many. */
size_t length(uint64_t exact);
/* A number below the range, or a damaged one that is not. */
uint64_t number(uint64_t range);
double of_bits(uint64_t bits);
/* A float that is not from -range to range. */
double bad_float(double range);
/* Fills a list to read with floats, a damaged one perhaps at its ends or anywhere. Whether all are in range. */
bool fill_floats(struct list *l, double range);

#endif
