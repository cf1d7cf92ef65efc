#include "calls.h"

#include "choices.h"
#include "judging.h"
#include "random.h"
#include "sheets.h"

#define IN_TABLE(name, tells) {#name, call_##name, tells, 0, 0},

struct call calls[] = {CALLS(IN_TABLE)};
const size_t n_calls = sizeof calls / sizeof calls[0];

void make_call(uint64_t seed, uint64_t number_of_call)
{
    static const unsigned faults[] = {0, 0, 3, 6, 12};
    random_begin(seed, number_of_call);
    judging_begin(&calls[number_of_call % n_calls], seed, number_of_call);
    fault = faults[below(5)];
    most_bytes = (size_t)4 << 20;
    s.used = false;
    lists_begin();
    current->made++;
    current->make();
}
