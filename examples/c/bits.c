/* Thins six hypotheses that vote yes or no on ten words, from one bit a vote, and counts the words that turn.

   The Makefile beside it builds it. Exit status: 0 done, 1 refused, 3 no memory. */
#include <inttypes.h>
#include <stdio.h>
#include <stdlib.h>

#include "knobthistle.h"

#define M 6 /* columns: hypotheses */
#define N 10 /* rows: words */

/* What each hypothesis says of each word, + where it is right and - where it is wrong. */
static const char *const votes[M] = {"+++-++-+++", "++-+++++-+", "-++++-++++", "+-+++++-++", "+++--++++-", "++++++---+"};

/* A bit is set for -, word 0 is the lowest bit, and a hypothesis begins on a byte: it has KNOB_BYTES(N), here two. */
static void pack(uint8_t bits[M * KNOB_BYTES(N)]) {
    for (size_t j = 0; j < M; j++)
        for (size_t i = 0; i < N; i++)
            if (votes[j][i] == '-') bits[j * KNOB_BYTES(N) + i / 8] |= (uint8_t)(1u << (i % 8));
}

int main(void) {
    uint8_t bits[M * KNOB_BYTES(N)] = {0}; /* the six spare bits of each hypothesis stay 0 */
    const double weights[M] = {1.0, 3.0, 1.0, 4.0, 1.0, 2.0};
    const double thresholds[N] = {0.0};
    double output[M];
    uint64_t turned;
    pack(bits);

    const size_t numbers_length = KNOB_NUMBERS(M, N), indices_length = KNOB_INDICES(M, N);
    double *numbers = malloc(numbers_length * sizeof *numbers);
    uint32_t *indices = malloc(indices_length * sizeof *indices);
    if (numbers == NULL || indices == NULL) {
        fprintf(stderr, "no memory\n");
        free(numbers);
        free(indices);
        return 3;
    }
    /* Seed 0, draw edition 1: to at most 3. */
    const knob_answer a = knob_sparsify_bits(bits, sizeof bits, M, N, weights, M, 0, 1, 3, output, M, numbers, numbers_length, indices,
                                             indices_length);
    free(numbers);
    free(indices);
    uint64_t number = a.number;
    if (number == 0) number = knob_turned_words_bits(bits, sizeof bits, M, N, weights, M, output, M, thresholds, N, &turned);
    if (number != 0) {
        fprintf(stderr, "refused %" PRIu64 ": see the table in knobthistle.h\n", number);
        return 1;
    }
    printf("stage %" PRIu64 ", %" PRIu64 " left, no margin moved by more than %g, %" PRIu64 " words turned\n", a.stage, a.nonzeros, a.change, turned);
    for (size_t j = 0; j < M; j++) printf("weight %zu: %g\n", j, output[j]);
    return 0;
}
