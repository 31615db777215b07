/* Thins the ensemble of the example sheet: two columns, two rows, weights 1 and 3, within an allowance of 0.5.

   The Makefile beside it builds it. Exit status: 0 thinned, 1 refused, 3 no memory. */
#include <inttypes.h>
#include <stdio.h>
#include <stdlib.h>

#include "knobthistle.h"

#define M 2 /* columns: hypotheses */
#define N 2 /* rows: words */

int main(void) {
    /* Column after column: the entry of row i and column j is matrix[j * N + i]. */
    const double matrix[M * N] = {
        1.0, 1.0,  /* hypothesis 0: right on both words */
        1.0, -1.0, /* hypothesis 1: right on the first, wrong on the second */
    };
    const double weights[M] = {1.0, 3.0}; /* they need not sum to 1 */
    double output[M];

    /* Scratch may hold anything. It can be lent to one call after the other, if it is long enough for each. */
    const size_t numbers_length = KNOB_NUMBERS(M, N), indices_length = KNOB_INDICES(M, N);
    double *numbers = malloc(numbers_length * sizeof *numbers);
    uint32_t *indices = malloc(indices_length * sizeof *indices);
    if (numbers == NULL || indices == NULL) {
        fprintf(stderr, "no memory for scratch\n");
        free(numbers);
        free(indices);
        return 3;
    }

    /* Lengths are counted in elements, not in bytes. */
    const uint64_t seed = 0;
    const uint32_t edition = 1; /* of the draws: 1, or 2 */
    const double allowance = 0.5;
    const uint32_t capped = 0; /* there is no cap, so its value does not matter */
    const size_t cap = 0;
    const knob_answer answer = knob_sparsify_within(matrix, M * N, M, N, weights, M, seed, edition, allowance, capped, cap, output, M,
                                                    numbers, numbers_length, indices, indices_length);
    free(numbers);
    free(indices);

    /* A refusal changes no output: what is in it then was never written. */
    if (answer.number != 0) {
        fprintf(stderr, "refused %" PRIu64 ": see the table in knobthistle.h\n", answer.number);
        return 1;
    }
    printf("stage %" PRIu64 ", %" PRIu64 " left, no margin moved by more than %g\n", answer.stage, answer.nonzeros, answer.change);
    printf("directions drawn: %" PRIu64 ", sweeps made: %" PRIu64 "\n", answer.directions, answer.sweeps);
    /* %g is for reading; %.17g keeps every double. */
    for (size_t j = 0; j < M; j++) printf("weight %zu: %g\n", j, output[j]);
    return 0;
}
