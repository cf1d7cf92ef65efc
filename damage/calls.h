/* The calls of include/zibrotka.h, each made with random inputs, right ones and damaged ones, and its answer judged. */
#ifndef CALLS_H
#define CALLS_H

#include <stddef.h>
#include <stdint.h>

struct call {
    const char *name; /* without zibrotka_ */
    void (*make)(void);
    uint32_t tells;  /* bit r: it can refuse with r */
    uint64_t made;   /* how often */
    size_t deepest;  /* the most bytes of stack that it touched */
};

#define BIT(r) (UINT32_C(1) << (r))
#define SHEET 0x3FEu
#define BASIS (SHEET | BIT(10))
#define TERM_REFUSALS (BASIS | BIT(12) | BIT(14) | BIT(15))

/* Every call with the refusals that it can tell, by the tables of docs/SCOPE.md. */
#define CALLS(X) \
    X(make_sheet, (SHEET & ~0xEu) | BIT(15)) \
    X(read_sheet, SHEET) \
    X(tri_edge_indices, SHEET | BIT(13)) \
    X(from_pentachorons, BIT(4) | BIT(9) | BIT(11) | BIT(15)) \
    X(spanning_tree, SHEET | BIT(15)) \
    X(fundamental_loops, SHEET | BIT(15)) \
    X(su2_fundamental_loops, SHEET | BIT(15)) \
    X(check_gauss_law, SHEET | BIT(12)) \
    X(check_gauss_law_finding, SHEET | BIT(12)) \
    X(enumerate_gauge_invariant, BASIS | BIT(15)) \
    X(count_states, BASIS) \
    X(config_to_index, BASIS | BIT(12) | BIT(15) | BIT(17)) \
    X(config_to_index_finding, BASIS | BIT(12) | BIT(15) | BIT(17)) \
    X(apply_shift, BASIS | BIT(12) | BIT(13) | BIT(15) | BIT(16) | BIT(17)) \
    X(apply_shift_finding, BASIS | BIT(12) | BIT(13) | BIT(15) | BIT(16) | BIT(17)) \
    X(apply_triangle_shift, BASIS | BIT(13) | BIT(15) | BIT(16)) \
    X(su2_basis, BASIS | BIT(15)) \
    X(su2_count_states, BASIS) \
    X(u1_params, BIT(14)) \
    X(su2_params, BIT(14)) \
    X(build_hamiltonian, TERM_REFUSALS) \
    X(build_su2_hamiltonian, TERM_REFUSALS) \
    X(build_csr, TERM_REFUSALS) \
    X(build_csr_su2, TERM_REFUSALS) \
    X(su2_count_entries, BASIS) \
    X(su2_hamiltonian_matvec, TERM_REFUSALS) \
    X(su2_wilson_loop, TERM_REFUSALS | BIT(13)) \
    X(su2_wilson_passes, TERM_REFUSALS | BIT(13)) \
    X(count_entries, BASIS) \
    X(hamiltonian_matvec, TERM_REFUSALS) \
    X(electric_field_sq, TERM_REFUSALS) \
    X(wilson_loop, TERM_REFUSALS | BIT(13)) \
    X(matvec, BIT(12) | BIT(13) | BIT(14) | BIT(15)) \
    X(refusal_text, BIT(13) | BIT(15)) \
    X(release, 0)

#define DECLARED(name, tells) void call_##name(void);
CALLS(DECLARED)
#undef DECLARED

extern struct call calls[];
extern const size_t n_calls;
/* How often each refusal was answered; at 0, how often none. */
extern uint64_t refused[18];

/* Makes the call of this number: which function, and every input, follow from it and the seed. */
void make_call(uint64_t seed, uint64_t number);
/* Says what is wrong with the call that is being made, and ends the program with 1. */
_Noreturn void fail(const char *what);
/* The same, from a signal handler. */
void tell_call(const char *what);

#endif
