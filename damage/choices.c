#include "choices.h"

#include "random.h"

#include <math.h>
#include <string.h>

unsigned fault;
size_t most_bytes;

bool faulty(void)
{
    return fault > 0 && one_in(fault);
}

size_t room(uint64_t exact, size_t size)
{
    uint64_t len = exact;
    if (faulty()) {
        const uint64_t few[] = {exact ? exact - 1 : 0, 0, below(exact + 1), exact / 2};
        len = few[below(4)];
    } else if (one_in(3)) {
        len += 1 + below(one_in(4) ? 5000 : 3);
    }
    return len < most_bytes / size ? (size_t)len : most_bytes / size;
}

size_t length(uint64_t exact)
{
    if (!faulty())
        return (size_t)exact;
    const uint64_t fewer = below(exact + 1), more = below(5000);
    const uint64_t wrong[] = {exact ? exact - 1 : 0, exact + 1, 0, fewer, 2 * exact, exact + more};
    return (size_t)wrong[below(6)];
}

uint64_t number(uint64_t range)
{
    if (range > 0 && !faulty())
        return below(range);
    const uint64_t wide = UINT64_C(1) << 32, inside = below(range), more = below(1000), any = random_bits();
    const uint64_t past[] = {range, range + 1, wide, wide + inside, UINT64_C(1) << 63, UINT64_MAX, UINT64_MAX - 1, range + more, any};
    return past[below(9)];
}

double of_bits(uint64_t bits)
{
    double x;
    memcpy(&x, &bits, 8);
    return x;
}

/* A float from -range to range: ordinary, at an end, tiny, subnormal, zero of either sign. */
static double good_float(double range)
{
    const double sign = one_in(2) ? 1.0 : -1.0;
    switch (below(8)) {
    case 0:
        return sign * range;
    case 1:
        return sign * nextafter(range, 0.0);
    case 2:
        return sign * of_bits(1 + below((UINT64_C(1) << 52) - 1));
    case 3:
        return sign * 0.0;
    case 4:
        return sign * of_bits((UINT64_C(1) << 52) + below(UINT64_C(1) << 52));
    default:
        return sign * (double)below(1000000) / 997.0;
    }
}

double bad_float(double range)
{
    const double sign = one_in(2) ? 1.0 : -1.0;
    switch (below(6)) {
    case 0:
        return sign * nextafter(range, INFINITY);
    case 1:
        return sign * INFINITY;
    case 2: /* a quiet NaN */
        return of_bits((random_bits() & UINT64_C(0x8007FFFFFFFFFFFF)) | UINT64_C(0x7FF8000000000000));
    case 3: /* a signalling NaN */
        return of_bits((random_bits() & UINT64_C(0x8007FFFFFFFFFFFF)) | UINT64_C(0x7FF0000000000001));
    case 4:
        return sign * of_bits(UINT64_C(0x7FEFFFFFFFFFFFFF));
    default:
        return sign * (range + range * (double)(1 + below(1000)));
    }
}

bool fill_floats(struct list *l, double range)
{
    double tile[32], *x = l->at;
    for (size_t i = 0; i < 32; i++)
        tile[i] = good_float(range);
    for (size_t i = 0; i < l->len; i++)
        x[i] = tile[i % 32];
    if (l->len == 0 || !faulty())
        return true;
    size_t place = one_in(3) ? 0 : one_in(2) ? l->len - 1 : below(l->len);
    x[place] = bad_float(range);
    return false;
}
