#include "judging.h"

#include "sheets.h"

#include <stdio.h>
#include <string.h>

uint64_t refused[18];
struct call *current;
int64_t answer;
static uint64_t the_seed, the_number;

void judging_begin(struct call *call, uint64_t seed, uint64_t number)
{
    current = call;
    the_seed = seed;
    the_number = number;
}

void tell_call(const char *what)
{
    char line[512];
    int n = snprintf(line, sizeof line, "damage: call %llu of seed %llu, zibrotka_%s: %s\n", (unsigned long long)the_number,
                     (unsigned long long)the_seed, current ? current->name : "", what);
    if (n > 0 && write(1, line, (size_t)n) < 0)
        _exit(2);
    if (!s.used)
        return;
    n = snprintf(line, sizeof line, "its sheet, %zu bytes:", s.len);
    for (size_t i = 0; i < s.len && n < 480; i++)
        n += snprintf(line + n, sizeof line - (size_t)n, " %02X", s.bytes[i]);
    n += snprintf(line + n, sizeof line - (size_t)n, n < 480 ? "\n" : " ..\n");
    if (write(1, line, (size_t)n) < 0)
        _exit(2);
}

void fail(const char *what)
{
    tell_call(what);
    _exit(1);
}

void check(bool holds, const char *what)
{
    if (!holds)
        fail(what);
}

void expect(unsigned refusal, uint64_t low, uint64_t high)
{
    char what[160];
    unsigned told = answer < 0 && answer >= -17 ? (unsigned)-answer : 0;
    snprintf(what, sizeof what, "the answer is %lld, expected is ", (long long)answer);
    size_t n = strlen(what);
    if (refusal)
        snprintf(what + n, sizeof what - n, "-%u", refusal);
    else
        snprintf(what + n, sizeof what - n, "%llu to %llu", (unsigned long long)low, (unsigned long long)high);
    if (answer < 0 && !(told > 0 && (current->tells >> told & 1)))
        snprintf(what, sizeof what, "the answer is %lld, which this call cannot tell", (long long)answer), fail(what);
    check(refusal ? told == refusal : answer >= 0 && (uint64_t)answer >= low && (uint64_t)answer <= high, what);
    int list = changed_list(told);
    if (list) {
        snprintf(what, sizeof what, "list %d (counted as they are made) has changed where it must not; the answer is %lld", list, (long long)answer);
        fail(what);
    }
    refused[told]++;
}

unsigned or_else(unsigned before, bool holds, unsigned number)
{
    return before ? before : holds ? number : 0;
}

void check_states(const struct list *states)
{
    if (answer >= 0 && s.listed && s.c.edges > 0)
        check(memcmp(states->at, side, 4 * state_entries()) == 0, "the list does not hold the states");
}

/* There are 2^F even sets, so the list holds them all if its masks are even and rise. */
void check_masks(const struct list *states)
{
    const uint64_t *mask = states->at;
    for (size_t i = 0; answer >= 0 && i < s.n; i++)
        check((i == 0 || mask[i - 1] < mask[i]) && even_set(&s.c, mask[i]), "the list does not hold the even sets");
}
