/* Prints a few square roots, and what is refused, through the C interface. ./demo compiles it to target/demo/roots. */
#include <inttypes.h>
#include <math.h>
#include <stdio.h>
#include <string.h>

#include "pikowhanu.h"

static uint64_t bits(double x)
{
    uint64_t b;
    memcpy(&b, &x, sizeof b);
    return b;
}

int main(void)
{
    const double numbers[] = {4.0, 2.0, 16.266, 1e-320, 0.0, -0.0, INFINITY, -1.0, NAN};
    for (size_t i = 0; i < sizeof numbers / sizeof numbers[0]; i++) {
        double root = 0.0;
        uint32_t refusal = pk_root(numbers[i], &root);
        if (refusal == 0)
            printf("root of %-8g is %-22.17g bits %016" PRIX64 "\n", numbers[i], root, bits(root));
        else
            printf("root of %-8g is refused: %" PRIu32 "\n", numbers[i], refusal);
    }
    return 0;
}
