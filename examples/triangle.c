/* One triangle with L = 1 and g² = 1: from the sheet to its states, its Hamiltonian, a product and a Wilson loop. */
#include "zibrotka.h"
#include <stdio.h>
#include <stdlib.h>

/* A call answers its value, or minus the number of a refusal. */
static size_t value(int64_t answer)
{
    if (answer < 0) {
        printf("refused %d\n", (int)-answer);
        exit(1);
    }
    return (size_t)answer;
}

int main(void)
{
    const uint8_t edges[] = {0, 1, 0, 2, 1, 2}, triangles[] = {0, 1, 2};
    const double vector[] = {1, 2, 3};
    uint8_t sheet[ZIBROTKA_SHEET_BYTES], path[3];
    int8_t directions[3];
    uint32_t starts[2];
    int32_t states[9];
    double p[3], matrix[9], product[3], expectation;

    size_t bytes = value(zibrotka_make_sheet(3, edges, 6, triangles, 3, 1, sheet, sizeof sheet));

    size_t n = value(zibrotka_enumerate_gauge_invariant(sheet, bytes, states, 9));
    for (size_t i = 0; i < n; i++)
        printf("state %zu: %d %d %d\n", i, states[3 * i], states[3 * i + 1], states[3 * i + 2]);

    value(zibrotka_u1_params(1.0, p)); /* g² and its two factors; without weights each triangle has weight 1 */
    value(zibrotka_build_hamiltonian(sheet, bytes, p[0], p[1], p[2], false, NULL, 0, states, 9, matrix, 9));
    for (size_t i = 0; i < n; i++)
        printf("row %zu: %g %g %g\n", i, matrix[3 * i], matrix[3 * i + 1], matrix[3 * i + 2]);

    value(zibrotka_hamiltonian_matvec(sheet, bytes, p[0], p[1], p[2], false, NULL, 0, vector, 3, states, 9, product, 3));
    printf("product: %g %g %g\n", product[0], product[1], product[2]);

    value(zibrotka_fundamental_loops(sheet, bytes, starts, 2, path, 3, directions, 3));
    printf("loop: (%d,%d) (%d,%d) (%d,%d)\n", path[0], directions[0], path[1], directions[1], path[2], directions[2]);
    value(zibrotka_wilson_loop(sheet, bytes, vector, 3, path, 3, directions, 3, states, 9, &expectation));
    printf("expectation: %g\n", expectation);
    return 0;
}
