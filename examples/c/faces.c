/* Thins three type faces over the same two words in one call: by an allowance, one with no weights that count, by a target.

   The Makefile beside it builds it. Exit status: 0 done, 1 the whole call refused, 3 no memory. */
#include <inttypes.h>
#include <stdio.h>
#include <stdlib.h>

#include "knobthistle.h"

#define M 2 /* columns: hypotheses */
#define N 2 /* rows: words */
#define FACES 3

int main(void) {
    /* One matrix for all: the entry of row i and column j is matrix[j * N + i]. */
    const double matrix[M * N] = {1.0, 1.0, 1.0, -1.0};
    /* Weights face after face, and one of each other list for each face. */
    const double weights[FACES * M] = {1.0, 3.0, 0.0, 0.0, 3.0, 1.0};
    const uint64_t seeds[FACES] = {0, 0, 1};
    const uint32_t editions[FACES] = {1, 1, 2};
    const uint32_t rules[FACES] = {1, 1, 0}; /* 0 a target, 1 an allowance, 2 an allowance with a cap */
    const double allowances[FACES] = {0.5, 0.5, 0.0};
    const uint64_t limits[FACES] = {0, 0, 1}; /* the target or the cap; where there is neither it does not matter */
    double output[FACES * M];

    const size_t numbers_length = KNOB_NUMBERS(M, N), indices_length = KNOB_INDICES(M, N);
    double *numbers = malloc(numbers_length * sizeof *numbers);
    uint32_t *indices = malloc(indices_length * sizeof *indices);
    knob_answers *answers = malloc(sizeof *answers); /* 64 answers: some kilobytes */
    if (numbers == NULL || indices == NULL || answers == NULL) {
        fprintf(stderr, "no memory\n");
        free(numbers);
        free(indices);
        free(answers);
        return 3;
    }
    *answers = knob_thin_all(matrix, M * N, M, N, FACES, weights, FACES * M, seeds, FACES, editions, FACES, rules, FACES, allowances, FACES,
                             limits, FACES, output, FACES * M, numbers, numbers_length, indices, indices_length);
    const uint64_t whole = answers->number;
    for (size_t k = 0; k < FACES && whole == 0; k++) {
        const knob_answer a = answers->items[k];
        /* A face that is refused leaves its part of output as it was, and the others as they are. */
        if (a.number != 0) printf("face %zu: refused %" PRIu64 "\n", k, a.number);
        else printf("face %zu: stage %" PRIu64 ", %" PRIu64 " left, weights %g and %g\n", k, a.stage, a.nonzeros, output[k * M], output[k * M + 1]);
    }
    free(numbers);
    free(indices);
    free(answers);
    if (whole != 0) fprintf(stderr, "refused %" PRIu64 ": see the table in knobthistle.h\n", whole);
    return whole != 0;
}
