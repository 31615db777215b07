/* Thins six hypotheses from their confidences and the labels of three words, and writes the columns that are kept.

   The Makefile beside it builds it. Exit status: 0 done, 1 refused, 3 no memory. */
#include <inttypes.h>
#include <stdio.h>
#include <stdlib.h>

#include "knobthistle.h"

#define M 6 /* columns: hypotheses */
#define N 3 /* rows: words */

int main(void) {
    /* How sure hypothesis j is of word i is confidences[j * N + i]; what the word is is labels[i]. */
    const double confidences[M * N] = {1.0, -1.0, 0.5,  1.0, -0.5, 1.0,  -0.5, -1.0, 1.0,
                                       0.5, 1.0,  1.0,  1.0, -1.0, -0.5, 0.5,  0.5,  1.0};
    const int8_t labels[N] = {1, -1, 1};
    const double weights[M] = {1.0, 3.0, 1.0, 4.0, 1.0, 2.0};
    uint32_t columns[M];
    double kept[M];

    const size_t numbers_length = KNOB_NUMBERS(M, N), indices_length = KNOB_INDICES(M, N);
    double *numbers = malloc(numbers_length * sizeof *numbers);
    uint32_t *indices = malloc(indices_length * sizeof *indices);
    if (numbers == NULL || indices == NULL) {
        fprintf(stderr, "no memory\n");
        free(numbers);
        free(indices);
        return 3;
    }
    /* Seed 0, draw edition 1, rule 0: to at most 3. */
    const knob_answer a = knob_thin_votes(confidences, M * N, labels, N, M, N, weights, M, 0, 1, 0, 0.0, 3, columns, M, kept, M,
                                          numbers, numbers_length, indices, indices_length);
    free(numbers);
    free(indices);
    if (a.number != 0) {
        fprintf(stderr, "refused %" PRIu64 ": see the table in knobthistle.h\n", a.number);
        return 1;
    }
    printf("stage %" PRIu64 ", %" PRIu64 " left, no margin moved by more than %g\n", a.stage, a.nonzeros, a.change);
    for (uint64_t k = 0; k < a.nonzeros; k++) printf("column %" PRIu32 ": %g\n", columns[k], kept[k]);
    return 0;
}
