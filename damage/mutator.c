/* A part for afl-fuzz, beside its own ways to change an input: a new random sheet, every other time damaged. */
#include "complexes.h"
#include "random.h"

static uint8_t sheet[LONGEST];

void *afl_custom_init(void *fuzzer, unsigned seed)
{
    (void)fuzzer;
    random_begin(seed, 0);
    return sheet;
}

size_t afl_custom_fuzz(void *data, uint8_t *bytes, size_t len, uint8_t **made, uint8_t *other, size_t other_len, size_t most)
{
    struct complex c;
    (void)data, (void)bytes, (void)len, (void)other, (void)other_len;
    make_complex(&c, true, one_in(100) ? MOST_CANDIDATES : 2000);
    size_t n = write_sheet(&c, sheet);
    if (one_in(2))
        n = damage_bytes(sheet, n);
    *made = sheet;
    return n < most ? n : most;
}

void afl_custom_deinit(void *data)
{
    (void)data;
}
