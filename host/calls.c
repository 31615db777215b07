/* calls.c: makes every call of the library with arguments that all differ, and holds its answers, which all differ too, to what they
   must be.

   No order of arguments is written here: each call stands in by_name.h as a macro that takes the variables of the parameters' names in the
   order in which some file declares them (`names` writes it, `test` and `exchange` say of which file). So an exchange of two parameters of
   one type in that file, or in the source that the archive was built from, gives other answers here, and so does an exchange of two fields
   of the record. A few exchanges change no answer of any call, as that of two lengths which have to be equal: see `names -s` for those.

   What the thinnings and the colouring must be is what the original gives with this library's draw; the draws are those of oracle/vectors.
   Every array has room for the longest, so that no wrong length leads out of one. Exit status: 0 all is as it must be, 1 not. */
#include <stdio.h>
#include <string.h>

#include "knobthistle.h"

#include "by_name.h"

#define ROOM 4096
#define NOISE 0x5AA5C33C0FF0E11Eu

static double matrix_room[ROOM], weights_room[ROOM], before_room[ROOM], after_room[ROOM], output_room[ROOM], numbers_room[ROOM];
static int8_t signs_room[ROOM], labels_room[ROOM];
static uint32_t columns_room[ROOM], indices_room[ROOM];
static uint8_t text_room[ROOM], answer_room[ROOM], bits_room[ROOM];

static int wrong = 0;

static void hold(const char *what, int right) {
    if (right) return;
    wrong = 1;
    printf("%s is not what it must be\n", what);
}

static uint64_t bits(double x) {
    uint64_t word;
    memcpy(&word, &x, sizeof word);
    return word;
}

static double number(uint64_t word) {
    double x;
    memcpy(&x, &word, sizeof x);
    return x;
}

/* What is lent to be written is full of noise before a call. */
static void lend(void) {
    for (size_t k = 0; k < ROOM; k++) {
        output_room[k] = numbers_room[k] = number(NOISE);
        signs_room[k] = 0x5A;
        columns_room[k] = indices_room[k] = (uint32_t)NOISE;
        answer_room[k] = 0x5A;
    }
}

/* An accepted call left exactly so much of both scratches zero. */
static int wiped(size_t numbers_length, size_t indices_length) {
    for (size_t k = 0; k < ROOM; k++) {
        if (bits(numbers_room[k]) != (k < numbers_length ? 0 : NOISE)) return 0;
        if (indices_room[k] != (k < indices_length ? 0 : (uint32_t)NOISE)) return 0;
    }
    return 1;
}

/* Nothing that was lent has been written. */
static int untouched(void) {
    for (size_t k = 0; k < ROOM; k++)
        if (bits(output_room[k]) != NOISE || signs_room[k] != 0x5A || columns_room[k] != (uint32_t)NOISE) return 0;
    return wiped(0, 0);
}

static int answers(knob_answer a, uint64_t no, uint64_t stage, uint64_t nonzeros, uint64_t change, uint64_t directions, uint64_t sweeps) {
    size_t k;
    int path = no != KNOB_ACCEPTED || (a.path_nonzeros[stage] == nonzeros && bits(a.path_change[stage]) == change);
    for (k = no == KNOB_ACCEPTED ? stage + 1 : 0; k < KNOB_MAX_STAGES; k++) {
        path = path && a.path_nonzeros[k] == 0 && bits(a.path_change[k]) == 0;
    }
    return a.number == no && a.stage == stage && a.nonzeros == nonzeros && bits(a.change) == change && a.directions == directions &&
           a.sweeps == sweeps && path;
}

/* A weight that is left: its place, and its bits. */
struct left {
    size_t place;
    uint64_t weight;
};

/* The output has these weights, zeros elsewhere, and noise behind. */
static int thinned(size_t m, const struct left *left, size_t count) {
    for (size_t j = 0, k = 0; j < ROOM; j++) {
        uint64_t expected = j < m ? 0 : NOISE;
        if (k < count && left[k].place == j) expected = left[k++].weight;
        if (bits(output_room[j]) != expected) return 0;
    }
    return 1;
}

/* Entries from -1 to 1, and weights of both signs. */
static void fill(size_t m, size_t n) {
    for (size_t j = 0; j < m; j++) {
        for (size_t i = 0; i < n; i++) matrix_room[j * n + i] = ((double)((j * 37 + i * i * 11 + j * i) % 9) - 4.0) / 4.0;
        weights_room[j] = (j % 5 == 2 ? -1.0 : 1.0) * (1.0 + (double)(j * j % 11));
    }
}

static void draws(void) {
    hold("knob_version", CALL_knob_version == KNOB_VERSION);
    {
        uint64_t ours = 0x61C8864680B583EBu, *state = &ours; /* C10 */
        hold("knob_uniform", CALL_knob_uniform == 1.0 / 18014398509481984.0 && ours == 0);
    }
    {
        uint64_t ours = 3, *state = &ours;
        hold("knob_gaussian", bits(CALL_knob_gaussian) == 0xBFE4837E94C544CCu && ours == 0x3C6EF372FE94F82Du);
    }
    {
        uint64_t ours = 0x61C8864680B583EBu, *state = &ours; /* C10's state, by edition 2 */
        hold("knob_uniform_2", CALL_knob_uniform_2 == 1.0 / 9007199254740992.0 && ours == 0);
    }
    {
        uint64_t ours = 0x61C8864680B583EBu, *state = &ours;
        hold("knob_gaussian_2", bits(CALL_knob_gaussian_2) == 0x40197A0B4576ECD0u && ours == 0x9E3779B97F4A7C15u);
    }
    {
        const double x = 2.0;
        hold("knob_sqrt", bits(CALL_knob_sqrt) == 0x3FF6A09E667F3BCDu);
    }
    {
        const uint64_t word = 0x1D0B14E4DB018FEDu;
        hold("knob_log_draw", bits(CALL_knob_log_draw) == 0xC001693F301DF160u);
    }
    {
        const uint64_t word = 0xB3466F8A7B81A989u;
        hold("knob_cos_draw", bits(CALL_knob_cos_draw) == 0xBFD3AA3076A982D8u);
    }
    {
        const uint64_t word = 0;
        hold("knob_log_draw_2", bits(CALL_knob_log_draw_2) == 0xC0425E4F7B2737FAu);
    }
    {
        const uint64_t word = 0x9E3779B97F4A7C15u;
        hold("knob_cos_draw_2", bits(CALL_knob_cos_draw_2) == 0xBFE798869E0DE834u);
    }
}

static void sparsify(void) {
    const double *matrix = matrix_room, *weights = weights_room;
    double *output = output_room, *numbers = numbers_room;
    uint32_t *indices = indices_room;
    {
        const size_t m = 24, n = 5, matrix_length = 120, weights_length = 24, output_length = 24;
        const size_t numbers_length = KNOB_NUMBERS(24, 5), indices_length = KNOB_INDICES(24, 5), target = 7;
        const uint64_t seed = 3;
        const uint32_t edition = 1;
        static const struct left left[] = {{3, 0x3FB826A439F656F2u}, {4, 0x3FCCFB2B78C13523u}, {5, 0x3FC3521CFB2B78C2u},
                                           {17, 0xBFC3521CFB2B78C2u}, {19, 0x3FD826A439F656F2u}};
        fill(m, n);
        lend();
        hold("knob_sparsify, its record", answers(CALL_knob_sparsify, KNOB_ACCEPTED, 2, 5, 0x3FDC6EF752A04B3Cu, 36, 7));
        hold("knob_sparsify", thinned(m, left, 5) && wiped(numbers_length, indices_length));
    }
    { /* By edition 2, from a seed on which edition 1 leaves others. */
        const size_t m = 24, n = 5, matrix_length = 120, weights_length = 24, output_length = 24;
        const size_t numbers_length = KNOB_NUMBERS(24, 5), indices_length = KNOB_INDICES(24, 5), target = 7;
        const uint64_t seed = 0xACFA9D4D29BC9012u;
        const uint32_t edition = 2;
        static const struct left left[] = {{3, 0x3FB745D1745D1746u}, {8, 0x3FD745D1745D1746u}, {13, 0x3FC745D1745D1746u},
                                           {17, 0xBFC29E4129E4129Fu}, {18, 0x3FCBED61BED61BEDu}};
        lend();
        hold("knob_sparsify by edition 2, its record", answers(CALL_knob_sparsify, KNOB_ACCEPTED, 2, 5, 0x3FD10EDEAD3F798Du, 35, 8));
        hold("knob_sparsify by edition 2", thinned(m, left, 5) && wiped(numbers_length, indices_length));
    }
    { /* The edition is tested after the target, and before the sizes. */
        const size_t m = 257, n = 5, matrix_length = 6, weights_length = 7, output_length = 8;
        const size_t numbers_length = 9, indices_length = 10;
        const uint64_t seed = 12;
        const uint32_t edition = 3;
        size_t target = 11;
        lend();
        hold("knob_sparsify, no such edition", answers(CALL_knob_sparsify, KNOB_REFUSED_EDITION, 0, 0, 0, 0, 0) && untouched());
        target = 0;
        hold("knob_sparsify, no target", answers(CALL_knob_sparsify, KNOB_REFUSED_ZERO, 0, 0, 0, 0, 0) && untouched());
    }
    { /* No two of these are equal. */
        const size_t m = 257, n = 5, matrix_length = 6, weights_length = 7, output_length = 8;
        const size_t numbers_length = 9, indices_length = 10, target = 11;
        const uint64_t seed = 12;
        const uint32_t edition = 2;
        lend();
        hold("knob_sparsify, refused", answers(CALL_knob_sparsify, KNOB_REFUSED_SIZE, 0, 0, 0, 0, 0) && untouched());
    }
}

static void sparsify_within(void) {
    const double *matrix = matrix_room, *weights = weights_room;
    double *output = output_room, *numbers = numbers_room;
    uint32_t *indices = indices_room;
    {
        const size_t m = 40, n = 7, matrix_length = 280, weights_length = 40, output_length = 40;
        const size_t numbers_length = KNOB_NUMBERS(40, 7), indices_length = KNOB_INDICES(40, 7), cap = 12;
        const uint64_t seed = 4;
        const uint32_t edition = 1, capped = 1;
        const double allowance = 0.03125;
        static const struct left left[] = {{3, 0x3FB0690690690690u}, {7, 0xBFC3B13B13B13B14u}, {8, 0x3FB0690690690690u},
                                           {16, 0x3FBA41A41A41A41Au}, {17, 0xBFBA41A41A41A41Au}, {20, 0x3FC0690690690690u},
                                           {35, 0x3FC0690690690690u}, {36, 0x3FD0690690690690u}};
        fill(m, n);
        lend();
        hold("knob_sparsify_within, its record", answers(CALL_knob_sparsify_within, KNOB_ACCEPTED, 2, 8, 0x3FD171B8E4FA2B41u, 56, 11));
        hold("knob_sparsify_within", thinned(m, left, 8) && wiped(numbers_length, indices_length));
    }
    { /* By edition 2, from a seed on which edition 1 leaves others. */
        const size_t m = 40, n = 7, matrix_length = 280, weights_length = 40, output_length = 40;
        const size_t numbers_length = KNOB_NUMBERS(40, 7), indices_length = KNOB_INDICES(40, 7), cap = 12;
        const uint64_t seed = 0x7F2BA34D7BA521E7u;
        const uint32_t edition = 2, capped = 1;
        const double allowance = 0.03125;
        static const struct left left[] = {{1, 0x3FC948B0FCD6E9E0u}, {3, 0x3FAF9ADD3C0CA457u}, {8, 0x3FAF9ADD3C0CA457u},
                                           {9, 0x3FBF9ADD3C0CA457u}, {14, 0x3FAF9ADD3C0CA457u}, {27, 0xBFB948B0FCD6E9E0u},
                                           {36, 0x3FCF9ADD3C0CA457u}, {37, 0xBFC2F684BDA12F68u}};
        lend();
        hold("knob_sparsify_within by edition 2, its record",
             answers(CALL_knob_sparsify_within, KNOB_ACCEPTED, 2, 8, 0x3FD20EFBF9223017u, 58, 8));
        hold("knob_sparsify_within by edition 2", thinned(m, left, 8) && wiped(numbers_length, indices_length));
    }
    { /* The edition is tested after the allowance, and before the sizes. */
        const size_t m = 257, n = 5, matrix_length = 6, weights_length = 7, output_length = 8;
        const size_t numbers_length = 9, indices_length = 10, cap = 11;
        const uint64_t seed = 12;
        const uint32_t edition = 0, capped = 1;
        double allowance = 0.5;
        lend();
        hold("knob_sparsify_within, no such edition",
             answers(CALL_knob_sparsify_within, KNOB_REFUSED_EDITION, 0, 0, 0, 0, 0) && untouched());
        allowance = -1.0;
        hold("knob_sparsify_within, no allowance",
             answers(CALL_knob_sparsify_within, KNOB_REFUSED_ALLOWANCE, 0, 0, 0, 0, 0) && untouched());
    }
    { /* C2; its one pass is discarded, and counts */
        const size_t m = 2, n = 2, matrix_length = 4, weights_length = 2, output_length = 2;
        const size_t numbers_length = KNOB_NUMBERS(2, 2), indices_length = KNOB_INDICES(2, 2), cap = 1;
        const uint64_t seed = 5;
        const uint32_t edition = 1, capped = 0;
        const double allowance = number(0x3FDFFFFFFFFFFFFFu);
        static const struct left left[] = {{0, 0x3FD0000000000000u}, {1, 0x3FE8000000000000u}};
        memcpy(matrix_room, (double[]){1.0, 1.0, 1.0, -1.0}, 4 * sizeof(double));
        memcpy(weights_room, (double[]){1.0, 3.0}, 2 * sizeof(double));
        lend();
        hold("C2, its record", answers(CALL_knob_sparsify_within, KNOB_ACCEPTED, 0, 2, 0, 1, 1));
        hold("C2", thinned(m, left, 2) && wiped(numbers_length, indices_length));
    }
    { /* No two of these are equal. */
        const size_t m = 257, n = 5, matrix_length = 6, weights_length = 7, output_length = 8;
        const size_t numbers_length = 9, indices_length = 10, cap = 11;
        const uint64_t seed = 12;
        const uint32_t edition = 2, capped = 1;
        const double allowance = 0.5;
        lend();
        hold("knob_sparsify_within, refused", answers(CALL_knob_sparsify_within, KNOB_REFUSED_SIZE, 0, 0, 0, 0, 0) && untouched());
    }
}

/* Two items as sparsify and sparsify_within have them above would have other matrices; so these are three of one: the first by a target,
   the second refused, the third by an allowance with a cap. Their answers are those of the single calls, made first. */
static void thin_all(void) {
    const double *matrix = matrix_room, *weights = weights_room;
    double *output = output_room, *numbers = numbers_room;
    uint32_t *indices = indices_room;
    static const uint64_t seeds[] = {3, 5, 4}, limits[] = {7, 0, 12};
    static const uint32_t editions[] = {1, 2, 2}, rules[] = {0, 0, 2};
    static const double allowances[] = {0.75, 0.25, 0.03125};
    const size_t m = 24, n = 5, items = 3, matrix_length = 120, numbers_length = KNOB_NUMBERS(24, 5), indices_length = KNOB_INDICES(24, 5);
    knob_answer first, third;
    double expected[72];
    fill(m, n);
    for (size_t j = 0; j < m; j++) {
        weights_room[m + j] = 1.0;
        weights_room[2 * m + j] = weights_room[m - 1 - j];
    }
    for (size_t k = 0; k < 72; k++) expected[k] = number(NOISE);
    {
        const size_t weights_length = 24, output_length = 24, target = 7;
        const uint64_t seed = 3;
        const uint32_t edition = 1;
        lend();
        first = CALL_knob_sparsify;
        memcpy(expected, output_room, 24 * sizeof(double));
    }
    {
        const size_t weights_length = 24, output_length = 24, cap = 12;
        const uint64_t seed = 4;
        const uint32_t edition = 2, capped = 1;
        const double allowance = 0.03125;
        const double *weights = weights_room + 48;
        lend();
        third = CALL_knob_sparsify_within;
        memcpy(expected + 48, output_room, 24 * sizeof(double));
    }
    {
        const size_t weights_length = 72, output_length = 72, seeds_length = 3, editions_length = 3, rules_length = 3;
        const size_t allowances_length = 3, limits_length = 3;
        lend();
        const knob_answers all = CALL_knob_thin_all;
        hold("knob_thin_all, its number", all.number == KNOB_ACCEPTED && first.number == KNOB_ACCEPTED && third.number == KNOB_ACCEPTED);
        hold("knob_thin_all, its first item", memcmp(&all.items[0], &first, sizeof first) == 0);
        hold("knob_thin_all, its second item", answers(all.items[1], KNOB_REFUSED_ZERO, 0, 0, 0, 0, 0));
        hold("knob_thin_all, its third item", memcmp(&all.items[2], &third, sizeof third) == 0);
        hold("knob_thin_all, past the items", answers(all.items[3], 0, 0, 0, 0, 0, 0) && answers(all.items[63], 0, 0, 0, 0, 0, 0));
        hold("knob_thin_all", memcmp(output_room, expected, sizeof expected) == 0 && bits(output_room[72]) == NOISE);
        hold("knob_thin_all, wiped", wiped(numbers_length, indices_length));
    }
    { /* No two of these are equal. */
        const size_t m = 257, n = 5, items = 2, matrix_length = 6, weights_length = 7, output_length = 8, numbers_length = 9;
        const size_t indices_length = 10, seeds_length = 11, editions_length = 12, rules_length = 13, allowances_length = 14, limits_length = 15;
        lend();
        const knob_answers all = CALL_knob_thin_all;
        hold("knob_thin_all, refused", all.number == KNOB_REFUSED_SIZE && answers(all.items[0], 0, 0, 0, 0, 0, 0) && untouched());
    }
    { /* Nor of these, where only the items are too many. */
        const size_t m = 3, n = 5, items = 65, matrix_length = 6, weights_length = 7, output_length = 8, numbers_length = 9;
        const size_t indices_length = 10, seeds_length = 11, editions_length = 12, rules_length = 13, allowances_length = 14, limits_length = 15;
        lend();
        const knob_answers all = CALL_knob_thin_all;
        hold("knob_thin_all, too many items", all.number == KNOB_REFUSED_SIZE && untouched());
    }
    { /* And of these, too many rows. */
        const size_t m = 3, n = 4097, items = 2, matrix_length = 6, weights_length = 7, output_length = 8, numbers_length = 9;
        const size_t indices_length = 10, seeds_length = 11, editions_length = 12, rules_length = 13, allowances_length = 14, limits_length = 15;
        lend();
        const knob_answers all = CALL_knob_thin_all;
        hold("knob_thin_all, too many rows", all.number == KNOB_REFUSED_SIZE && untouched());
    }
}

/* The columns and the kept weights have what these weights leave, packed, zeros behind, and noise behind them. */
static int packed(const double *left, size_t m) {
    size_t k = 0;
    for (size_t j = 0; j < m; j++) {
        if (left[j] == 0.0) continue;
        if (columns_room[k] != j || bits(output_room[k]) != bits(left[j])) return 0;
        k++;
    }
    for (; k < ROOM; k++)
        if (columns_room[k] != (k < m ? 0 : (uint32_t)NOISE) || bits(output_room[k]) != (k < m ? 0 : NOISE)) return 0;
    return 1;
}

/* The entries for confidences, with labels of both signs: the answers are those of the calls on margins that are formed here. */
static void thin_votes(void) {
    static double margins[120];
    double left[24];
    const double *confidences = matrix_room, *weights = weights_room;
    const int8_t *labels = labels_room;
    double *kept = output_room, *numbers = numbers_room;
    uint32_t *columns = columns_room, *indices = indices_room;
    const size_t numbers_length = KNOB_NUMBERS(24, 5), indices_length = KNOB_INDICES(24, 5);
    fill(24, 5);
    memcpy(labels_room, (int8_t[]){1, -1, -1, 1, -1}, 5);
    for (size_t k = 0; k < 120; k++) margins[k] = (double)labels_room[k % 5] * matrix_room[k];
    {
        const size_t m = 24, n = 5, weights_length = 24, confidences_length = 120, labels_length = 5, columns_length = 24, kept_length = 24;
        const uint64_t seed = 0xACFA9D4D29BC9012u;
        const uint32_t edition = 2, rule = 0;
        const double allowance = -1.0;
        const size_t limit = 7;
        knob_answer alone;
        {
            const double *matrix = margins;
            double *output = output_room;
            const size_t matrix_length = 120, output_length = 24, target = 7;
            lend();
            alone = CALL_knob_sparsify;
            memcpy(left, output_room, sizeof left);
        }
        lend();
        const knob_answer votes = CALL_knob_thin_votes;
        hold("knob_thin_votes, its record", votes.number == KNOB_ACCEPTED && memcmp(&votes, &alone, sizeof votes) == 0);
        hold("knob_thin_votes, its lists", votes.nonzeros == 5 && packed(left, m));
        hold("knob_thin_votes, wiped", wiped(numbers_length, indices_length));
    }
    {
        const size_t m = 24, n = 5, weights_length = 24, confidences_length = 120, labels_length = 5, columns_length = 24, kept_length = 24;
        const uint64_t seed = 4;
        const uint32_t edition = 1, rule = 2;
        const double allowance = 0.03125;
        const size_t limit = 12;
        knob_answer alone;
        {
            const double *matrix = margins;
            double *output = output_room;
            const size_t matrix_length = 120, output_length = 24, cap = 12;
            const uint32_t capped = 1;
            lend();
            alone = CALL_knob_sparsify_within;
            memcpy(left, output_room, sizeof left);
        }
        lend();
        const knob_answer votes = CALL_knob_thin_votes;
        hold("knob_thin_votes by a cap, its record", votes.number == KNOB_ACCEPTED && memcmp(&votes, &alone, sizeof votes) == 0);
        hold("knob_thin_votes by a cap", packed(left, m) && wiped(numbers_length, indices_length));
    }
    { /* The labels are tested after the sizes, and before the confidences. */
        const size_t m = 24, n = 5, weights_length = 24, confidences_length = 120, kept_length = 24;
        const uint64_t seed = 4;
        const uint32_t edition = 1, rule = 1;
        const double allowance = 0.5;
        const size_t limit = 12;
        size_t labels_length = 5, columns_length = 24;
        labels_room[3] = 0;
        matrix_room[7] = 2.0;
        lend();
        hold("knob_thin_votes, no such label", answers(CALL_knob_thin_votes, KNOB_REFUSED_LABEL, 0, 0, 0, 0, 0) && untouched());
        columns_length = 23;
        hold("knob_thin_votes, too few columns", answers(CALL_knob_thin_votes, KNOB_REFUSED_LENGTH, 0, 0, 0, 0, 0) && untouched());
        columns_length = 24;
        labels_length = 6;
        hold("knob_thin_votes, too many labels", answers(CALL_knob_thin_votes, KNOB_REFUSED_LENGTH, 0, 0, 0, 0, 0) && untouched());
        labels_length = 5;
        labels_room[3] = 1;
        hold("knob_thin_votes, no such confidence", answers(CALL_knob_thin_votes, KNOB_REFUSED_ENTRY, 0, 0, 0, 0, 0) && untouched());
    }
    { /* No two of these are equal. */
        const size_t m = 257, n = 5, confidences_length = 6, labels_length = 7, weights_length = 8, columns_length = 9, kept_length = 10;
        const size_t numbers_length = 11, indices_length = 12, limit = 13;
        const uint64_t seed = 14;
        const uint32_t edition = 2, rule = 1;
        const double allowance = 0.5;
        lend();
        hold("knob_thin_votes, refused", answers(CALL_knob_thin_votes, KNOB_REFUSED_SIZE, 0, 0, 0, 0, 0) && untouched());
    }
    { /* Nor of these: too many rows. */
        const size_t m = 3, n = 4097, confidences_length = 6, labels_length = 7, weights_length = 8, columns_length = 9, kept_length = 10;
        const size_t numbers_length = 11, indices_length = 12, limit = 13;
        const uint64_t seed = 14;
        const uint32_t edition = 2, rule = 1;
        const double allowance = 0.5;
        lend();
        hold("knob_thin_votes, too many rows", answers(CALL_knob_thin_votes, KNOB_REFUSED_SIZE, 0, 0, 0, 0, 0) && untouched());
    }
}

static void discrepancy_coloring(void) {
    const double *matrix = matrix_room;
    double *numbers = numbers_room;
    int8_t *output = signs_room;
    uint32_t *indices = indices_room;
    {
        const size_t m = 9, n = 4, matrix_length = 36, output_length = 9;
        const size_t numbers_length = KNOB_NUMBERS(9, 4), indices_length = KNOB_INDICES(9, 4);
        const uint64_t seed = 6;
        static const int8_t signs[] = {1, -1, -1, -1, 1, -1, 1, 1, -1, 0x5A};
        fill(m, n);
        lend();
        const knob_colored colored = CALL_knob_discrepancy_coloring;
        hold("knob_discrepancy_coloring, its number", colored.number == KNOB_ACCEPTED);
        hold("knob_discrepancy_coloring, its counts", colored.directions == 9 && colored.sweeps == 1);
        hold("knob_discrepancy_coloring", memcmp(signs_room, signs, sizeof signs) == 0 && wiped(numbers_length, indices_length));
    }
    { /* No two of these are equal. */
        const size_t m = 257, n = 5, matrix_length = 6, output_length = 8, numbers_length = 9, indices_length = 10;
        const uint64_t seed = 12;
        lend();
        const knob_colored colored = CALL_knob_discrepancy_coloring;
        hold("knob_discrepancy_coloring, refused", colored.number == KNOB_REFUSED_SIZE && colored.directions == 0 && colored.sweeps == 0);
        hold("knob_discrepancy_coloring, refused and untouched", untouched());
    }
}

/* Votes of both kinds, in doubles and as bits. */
static void fill_votes(size_t m, size_t n) {
    fill(m, n);
    memset(bits_room, 0, sizeof bits_room);
    for (size_t k = 0; k < m * n; k++) {
        const int no = matrix_room[k] < 0.0;
        matrix_room[k] = no ? -1.0 : 1.0;
        if (no) bits_room[k / n * KNOB_BYTES(n) + k % n / 8] |= (uint8_t)(1u << (k % n % 8));
    }
}

/* The call on bits gave this answer, and the output and scratches are as the one on doubles left them. */
static int same(knob_answer ours, knob_answer theirs, const double *left, size_t m, size_t numbers_length, size_t indices_length) {
    return theirs.number == KNOB_ACCEPTED && theirs.stage > 1 && memcmp(&ours, &theirs, sizeof ours) == 0 &&
           memcmp(output_room, left, m * sizeof *left) == 0 && bits(output_room[m]) == NOISE && wiped(numbers_length, indices_length);
}

/* The answers on bits are those of the calls on the doubles that they stand for, made first. */
static void sparsify_bits(void) {
    const uint8_t *bits = bits_room;
    const double *matrix = matrix_room, *weights = weights_room;
    double *output = output_room, *numbers = numbers_room, left[24];
    uint32_t *indices = indices_room;
    {
        const size_t m = 24, n = 19, bits_length = 72, matrix_length = 456, weights_length = 24, output_length = 24;
        const size_t numbers_length = KNOB_NUMBERS(24, 19), indices_length = KNOB_INDICES(24, 19), target = 7;
        const uint64_t seed = 3;
        const uint32_t edition = 2;
        fill_votes(m, n);
        lend();
        const knob_answer theirs = CALL_knob_sparsify;
        memcpy(left, output_room, sizeof left);
        lend();
        const knob_answer ours = CALL_knob_sparsify_bits;
        hold("knob_sparsify_bits", same(ours, theirs, left, m, numbers_length, indices_length));
        bits_room[3 * 5 + 2] |= 0x08; /* column 5, row 19, of which there is none */
        lend();
        hold("knob_sparsify_bits, a spare bit", answers(CALL_knob_sparsify_bits, KNOB_REFUSED_SPARE_BIT, 0, 0, 0, 0, 0) && untouched());
    }
    { /* No two of these are equal. */
        const size_t m = 257, n = 5, bits_length = 6, weights_length = 7, output_length = 8, numbers_length = 9, indices_length = 10;
        const size_t target = 11;
        const uint64_t seed = 12;
        const uint32_t edition = 2;
        lend();
        hold("knob_sparsify_bits, refused", answers(CALL_knob_sparsify_bits, KNOB_REFUSED_SIZE, 0, 0, 0, 0, 0) && untouched());
    }
    { /* Nor of these: the edition and the target are tested before the sizes. */
        const size_t m = 257, n = 5, bits_length = 6, weights_length = 7, output_length = 8, numbers_length = 9, indices_length = 10;
        const uint64_t seed = 12;
        const uint32_t edition = 3;
        size_t target = 11;
        lend();
        hold("knob_sparsify_bits, no such edition", answers(CALL_knob_sparsify_bits, KNOB_REFUSED_EDITION, 0, 0, 0, 0, 0) && untouched());
        target = 0;
        hold("knob_sparsify_bits, no target", answers(CALL_knob_sparsify_bits, KNOB_REFUSED_ZERO, 0, 0, 0, 0, 0) && untouched());
    }
}

static void sparsify_within_bits(void) {
    const uint8_t *bits = bits_room;
    const double *matrix = matrix_room, *weights = weights_room;
    double *output = output_room, *numbers = numbers_room, left[40];
    uint32_t *indices = indices_room;
    {
        const size_t m = 40, n = 11, bits_length = 80, matrix_length = 440, weights_length = 40, output_length = 40;
        const size_t numbers_length = KNOB_NUMBERS(40, 11), indices_length = KNOB_INDICES(40, 11), cap = 12;
        const uint64_t seed = 4;
        const uint32_t edition = 2, capped = 1;
        const double allowance = 0.03125;
        fill_votes(m, n);
        lend();
        const knob_answer theirs = CALL_knob_sparsify_within;
        memcpy(left, output_room, sizeof left);
        lend();
        const knob_answer ours = CALL_knob_sparsify_within_bits;
        hold("knob_sparsify_within_bits", same(ours, theirs, left, m, numbers_length, indices_length));
    }
    { /* Without a cap, whose value then does not matter. */
        const size_t m = 40, n = 11, bits_length = 80, matrix_length = 440, weights_length = 40, output_length = 40;
        const size_t numbers_length = KNOB_NUMBERS(40, 11), indices_length = KNOB_INDICES(40, 11), cap = 0;
        const uint64_t seed = 4;
        const uint32_t edition = 2, capped = 0;
        const double allowance = 0.75;
        lend();
        const knob_answer theirs = CALL_knob_sparsify_within;
        memcpy(left, output_room, sizeof left);
        lend();
        const knob_answer ours = CALL_knob_sparsify_within_bits;
        hold("knob_sparsify_within_bits without a cap", same(ours, theirs, left, m, numbers_length, indices_length));
    }
    { /* No two of these are equal. */
        const size_t m = 257, n = 5, bits_length = 6, weights_length = 7, output_length = 8, numbers_length = 9, indices_length = 10;
        const size_t cap = 11;
        const uint64_t seed = 12;
        const uint32_t edition = 2, capped = 1;
        double allowance = 0.5;
        lend();
        hold("knob_sparsify_within_bits, refused",
             answers(CALL_knob_sparsify_within_bits, KNOB_REFUSED_SIZE, 0, 0, 0, 0, 0) && untouched());
        allowance = -1.0;
        hold("knob_sparsify_within_bits, no allowance",
             answers(CALL_knob_sparsify_within_bits, KNOB_REFUSED_ALLOWANCE, 0, 0, 0, 0, 0) && untouched());
    }
}

static void thin_bits(void) {
    const uint8_t *bits = bits_room;
    const double *matrix = matrix_room, *weights = weights_room;
    double *output = output_room, *numbers = numbers_room, left[24];
    uint32_t *indices = indices_room;
    const size_t numbers_length = KNOB_NUMBERS(24, 19), indices_length = KNOB_INDICES(24, 19);
    fill_votes(24, 19);
    {
        const size_t m = 24, n = 19, bits_length = 72, matrix_length = 456, weights_length = 24, output_length = 24, target = 7, limit = 7;
        const uint64_t seed = 3;
        const uint32_t edition = 2, rule = 0;
        const double allowance = -1.0;
        lend();
        const knob_answer theirs = CALL_knob_sparsify;
        memcpy(left, output_room, sizeof left);
        lend();
        const knob_answer ours = CALL_knob_thin_bits;
        hold("knob_thin_bits", same(ours, theirs, left, m, numbers_length, indices_length));
    }
    {
        const size_t m = 24, n = 19, bits_length = 72, matrix_length = 456, weights_length = 24, output_length = 24, cap = 5, limit = 5;
        const uint64_t seed = 4;
        const uint32_t edition = 1, rule = 2, capped = 1;
        const double allowance = 0.03125;
        lend();
        const knob_answer theirs = CALL_knob_sparsify_within;
        memcpy(left, output_room, sizeof left);
        lend();
        const knob_answer ours = CALL_knob_thin_bits;
        hold("knob_thin_bits by a cap", same(ours, theirs, left, m, numbers_length, indices_length));
    }
    { /* No two of these are equal. */
        const size_t m = 257, n = 5, bits_length = 6, weights_length = 7, output_length = 8, numbers_length = 9, indices_length = 10;
        const size_t limit = 11;
        const uint64_t seed = 12;
        const uint32_t edition = 2;
        const double allowance = 0.5;
        uint32_t rule = 1;
        lend();
        hold("knob_thin_bits, refused", answers(CALL_knob_thin_bits, KNOB_REFUSED_SIZE, 0, 0, 0, 0, 0) && untouched());
        rule = 3;
        hold("knob_thin_bits, no such rule", answers(CALL_knob_thin_bits, KNOB_REFUSED_ZERO, 0, 0, 0, 0, 0) && untouched());
    }
}

/* Three items, as thin_all has them on doubles; their answers are those of the single calls on the doubles, made first. */
static void thin_all_bits(void) {
    const uint8_t *bits = bits_room;
    const double *matrix = matrix_room, *weights = weights_room;
    double *output = output_room, *numbers = numbers_room;
    uint32_t *indices = indices_room;
    static const uint64_t seeds[] = {3, 5, 4}, limits[] = {7, 0, 5};
    static const uint32_t editions[] = {2, 1, 1}, rules[] = {0, 0, 2};
    static const double allowances[] = {0.75, 0.25, 0.03125};
    const size_t m = 24, n = 11, items = 3, bits_length = 48, matrix_length = 264;
    const size_t numbers_length = KNOB_NUMBERS(24, 11), indices_length = KNOB_INDICES(24, 11);
    knob_answer first, third;
    double expected[73];
    fill_votes(m, n);
    for (size_t j = 0; j < m; j++) {
        weights_room[m + j] = 1.0;
        weights_room[2 * m + j] = weights_room[m - 1 - j];
    }
    for (size_t k = 0; k < 73; k++) expected[k] = number(NOISE);
    {
        const size_t weights_length = 24, output_length = 24, target = 7;
        const uint64_t seed = 3;
        const uint32_t edition = 2;
        lend();
        first = CALL_knob_sparsify;
        memcpy(expected, output_room, 24 * sizeof(double));
    }
    {
        const size_t weights_length = 24, output_length = 24, cap = 5;
        const uint64_t seed = 4;
        const uint32_t edition = 1, capped = 1;
        const double allowance = 0.03125;
        const double *weights = weights_room + 48;
        lend();
        third = CALL_knob_sparsify_within;
        memcpy(expected + 48, output_room, 24 * sizeof(double));
    }
    {
        const size_t weights_length = 72, output_length = 72, seeds_length = 3, editions_length = 3, rules_length = 3;
        const size_t allowances_length = 3, limits_length = 3;
        lend();
        const knob_answers all = CALL_knob_thin_all_bits;
        hold("knob_thin_all_bits, its number",
             all.number == KNOB_ACCEPTED && first.number == KNOB_ACCEPTED && third.number == KNOB_ACCEPTED && first.stage > 1 && third.stage > 1);
        hold("knob_thin_all_bits, its first item", memcmp(&all.items[0], &first, sizeof first) == 0);
        hold("knob_thin_all_bits, its second item", answers(all.items[1], KNOB_REFUSED_ZERO, 0, 0, 0, 0, 0));
        hold("knob_thin_all_bits, its third item", memcmp(&all.items[2], &third, sizeof third) == 0);
        hold("knob_thin_all_bits, past the items", answers(all.items[3], 0, 0, 0, 0, 0, 0) && answers(all.items[63], 0, 0, 0, 0, 0, 0));
        hold("knob_thin_all_bits", memcmp(output_room, expected, sizeof expected) == 0 && wiped(numbers_length, indices_length));
        bits_room[2 * 5 + 1] |= 0x08; /* column 5, row 11, of which there is none */
        lend();
        const knob_answers none = CALL_knob_thin_all_bits;
        hold("knob_thin_all_bits, a spare bit",
             none.number == KNOB_REFUSED_SPARE_BIT && answers(none.items[0], 0, 0, 0, 0, 0, 0) && untouched());
    }
    { /* No two of these are equal. */
        const size_t m = 257, n = 5, items = 2, bits_length = 6, weights_length = 7, output_length = 8, numbers_length = 9;
        const size_t indices_length = 10, seeds_length = 11, editions_length = 12, rules_length = 13, allowances_length = 14, limits_length = 15;
        lend();
        const knob_answers all = CALL_knob_thin_all_bits;
        hold("knob_thin_all_bits, refused", all.number == KNOB_REFUSED_SIZE && answers(all.items[0], 0, 0, 0, 0, 0, 0) && untouched());
    }
    { /* Nor of these, where only the items are too many. */
        const size_t m = 3, n = 5, items = 65, bits_length = 6, weights_length = 7, output_length = 8, numbers_length = 9;
        const size_t indices_length = 10, seeds_length = 11, editions_length = 12, rules_length = 13, allowances_length = 14, limits_length = 15;
        lend();
        const knob_answers all = CALL_knob_thin_all_bits;
        hold("knob_thin_all_bits, too many items", all.number == KNOB_REFUSED_SIZE && untouched());
    }
    { /* And of these, too many rows. */
        const size_t m = 3, n = 4097, items = 2, bits_length = 6, weights_length = 7, output_length = 8, numbers_length = 9;
        const size_t indices_length = 10, seeds_length = 11, editions_length = 12, rules_length = 13, allowances_length = 14, limits_length = 15;
        lend();
        const knob_answers all = CALL_knob_thin_all_bits;
        hold("knob_thin_all_bits, too many rows", all.number == KNOB_REFUSED_SIZE && untouched());
    }
}

static void discrepancy_coloring_bits(void) {
    const uint8_t *bits = bits_room;
    const double *matrix = matrix_room;
    double *numbers = numbers_room;
    int8_t *output = signs_room, signs[10];
    uint32_t *indices = indices_room;
    {
        const size_t m = 9, n = 11, bits_length = 18, matrix_length = 99, output_length = 9;
        const size_t numbers_length = KNOB_NUMBERS(9, 11), indices_length = KNOB_INDICES(9, 11);
        const uint64_t seed = 6;
        fill_votes(m, n);
        lend();
        const knob_colored theirs = CALL_knob_discrepancy_coloring;
        memcpy(signs, signs_room, sizeof signs);
        lend();
        const knob_colored ours = CALL_knob_discrepancy_coloring_bits;
        hold("knob_discrepancy_coloring_bits, its record",
             theirs.number == KNOB_ACCEPTED && theirs.directions != theirs.sweeps && memcmp(&ours, &theirs, sizeof ours) == 0);
        hold("knob_discrepancy_coloring_bits", memcmp(signs_room, signs, sizeof signs) == 0 && wiped(numbers_length, indices_length));
    }
    { /* No two of these are equal. */
        const size_t m = 257, n = 5, bits_length = 6, output_length = 8, numbers_length = 9, indices_length = 10;
        const uint64_t seed = 12;
        lend();
        const knob_colored colored = CALL_knob_discrepancy_coloring_bits;
        hold("knob_discrepancy_coloring_bits, refused",
             colored.number == KNOB_REFUSED_SIZE && colored.directions == 0 && colored.sweeps == 0 && untouched());
    }
}

/* Three columns of ten rows, of which the last moves farthest; by hand. */
static void margins_bits(void) {
    const uint8_t *bits = bits_room;
    const double *before = before_room, *after = after_room;
    const double thresholds[] = {3.0, 0.0, -2.0, 1.0, -3.0, 3.0, 2.0, 0.0, 5.0, 2.0};
    double moved = -7.0, *change = &moved;
    uint64_t turned = 77, *count = &turned;
    memcpy(bits_room, (uint8_t[]){0x94, 0x00, 0x49, 0x00, 0xB6, 0x01}, 6);
    memcpy(before_room, (double[]){1.0, 2.0, 3.0}, 3 * sizeof(double));
    memcpy(after_room, (double[]){4.0, -2.0, -0.5}, 3 * sizeof(double));
    {
        const size_t m = 3, n = 10, bits_length = 6, before_length = 3, after_length = 3, thresholds_length = 10;
        hold("knob_max_margin_change_bits, its number", CALL_knob_max_margin_change_bits == KNOB_ACCEPTED);
        hold("knob_max_margin_change_bits", moved == 4.5);
        hold("knob_turned_words_bits, its number", CALL_knob_turned_words_bits == KNOB_ACCEPTED);
        hold("knob_turned_words_bits", turned == 5);
        bits_room[3] = 0x04; /* column 1, row 10, of which there is none */
        hold("knob_max_margin_change_bits, a spare bit", CALL_knob_max_margin_change_bits == KNOB_REFUSED_SPARE_BIT && moved == 0.0);
        hold("knob_turned_words_bits, a spare bit", CALL_knob_turned_words_bits == KNOB_REFUSED_SPARE_BIT && turned == 0);
    }
    { /* No two of these are equal. */
        const size_t m = 257, n = 5, bits_length = 6, before_length = 7, after_length = 8, thresholds_length = 9;
        moved = -7.0;
        turned = 77;
        hold("knob_max_margin_change_bits, refused", CALL_knob_max_margin_change_bits == KNOB_REFUSED_SIZE && moved == 0.0);
        hold("knob_turned_words_bits, refused", CALL_knob_turned_words_bits == KNOB_REFUSED_SIZE && turned == 0);
    }
    { /* Nor of these: too many rows. */
        const size_t m = 3, n = 4097, bits_length = 6, before_length = 7, after_length = 8, thresholds_length = 9;
        turned = 77;
        hold("knob_turned_words_bits, too many rows", CALL_knob_turned_words_bits == KNOB_REFUSED_SIZE && turned == 0);
    }
}

/* Three columns of four rows; by hand. */
static void margins(void) {
    static const double columns[] = {0.5, -1.0, 0.25, 1.0, 1.0, 0.5, -0.5, -0.25, -1.0, 0.75, 1.0, -0.5};
    const double *matrix = matrix_room, *before = before_room, *after = after_room;
    memcpy(matrix_room, columns, sizeof columns);
    memcpy(before_room, (double[]){1.0, 2.0, 3.0}, 3 * sizeof(double));
    memcpy(after_room, (double[]){4.0, -2.0, -0.5}, 3 * sizeof(double));
    {
        const size_t m = 3, n = 4, matrix_length = 12, before_length = 3, after_length = 3;
        double ours = -7.0, *change = &ours;
        hold("knob_max_margin_change, its number", CALL_knob_max_margin_change == KNOB_ACCEPTED);
        hold("knob_max_margin_change", ours == 7.625);
    }
    {
        const size_t m = 3, n = 4, matrix_length = 12, before_length = 3, after_length = 3;
        const double thresholds[] = {-0.5, 3.0, -0.25, 4.0};
        const size_t thresholds_length = 4;
        uint64_t ours = 77, *count = &ours;
        hold("knob_turned_words, its number", CALL_knob_turned_words == KNOB_ACCEPTED);
        hold("knob_turned_words", ours == 2);
    }
    { /* No two of these are equal. */
        const double thresholds[] = {0.0};
        const size_t m = 257, n = 5, matrix_length = 6, before_length = 7, after_length = 8, thresholds_length = 9;
        double moved = -7.0, *change = &moved;
        uint64_t turned = 77, *count = &turned;
        hold("knob_max_margin_change, refused", CALL_knob_max_margin_change == KNOB_REFUSED_SIZE && bits(moved) == 0);
        hold("knob_turned_words, refused", CALL_knob_turned_words == KNOB_REFUSED_SIZE && turned == 0);
    }
    { /* Nor of these: the number of thresholds is not the number of rows. */
        const double thresholds[] = {0.0};
        const size_t m = 3, n = 4097, matrix_length = 6, before_length = 7, after_length = 8, thresholds_length = 9;
        uint64_t turned = 77, *count = &turned;
        hold("knob_turned_words, too many rows", CALL_knob_turned_words == KNOB_REFUSED_SIZE && turned == 0);
    }
}

/* The changes of the four rows are -1, -0.8125, 1.375 and 0.8125; by hand. */
static int listed(const uint32_t *rows, const double *changes) {
    static const uint32_t order[] = {2, 0, 1, 3, 9};
    static const double moved[] = {1.375, -1.0, -0.8125, 0.8125, 9.0};
    return memcmp(rows, order, sizeof order) == 0 && memcmp(changes, moved, sizeof moved) == 0;
}

static void moved(void) {
    static const double columns[] = {0.5, -1.0, 0.25, 1.0, 1.0, 0.5, -0.5, -0.25, -1.0, 0.75, 1.0, -0.5};
    const double *matrix = matrix_room, *before = before_room, *after = after_room;
    uint32_t rows[] = {9, 9, 9, 9, 9};
    double changes[] = {9.0, 9.0, 9.0, 9.0, 9.0};
    memcpy(matrix_room, columns, sizeof columns);
    memcpy(before_room, (double[]){0.5, -0.25, 1.0}, 3 * sizeof(double));
    memcpy(after_room, (double[]){-0.5, 0.5, 0.25}, 3 * sizeof(double));
    { /* No two of these are equal, and then n is too large too: nothing is written. */
        const size_t m = 257, matrix_length = 6, before_length = 7, after_length = 8, rows_length = 9, changes_length = 10;
        const size_t n = 5;
        hold("knob_moved, refused", CALL_knob_moved == KNOB_REFUSED_SIZE && rows[0] == 9 && changes[0] == 9.0);
        hold("knob_moved_again, refused", CALL_knob_moved_again == KNOB_REFUSED_SIZE && rows[0] == 9 && changes[0] == 9.0);
    }
    {
        const size_t m = 3, n = 4097, matrix_length = 6, before_length = 7, after_length = 8, rows_length = 9, changes_length = 10;
        hold("knob_moved, too many rows", CALL_knob_moved == KNOB_REFUSED_SIZE && rows[0] == 9 && changes[0] == 9.0);
        hold("knob_moved_again, too many rows", CALL_knob_moved_again == KNOB_REFUSED_SIZE && rows[0] == 9 && changes[0] == 9.0);
    }
    {
        const size_t m = 3, n = 4, matrix_length = 12, before_length = 3, after_length = 3, rows_length = 4, changes_length = 4;
        hold("knob_moved, its number", CALL_knob_moved == KNOB_ACCEPTED);
        hold("knob_moved", listed(rows, changes));
        rows[0] = rows[1] = 3;
        hold("knob_moved_again, its number", CALL_knob_moved_again == KNOB_ACCEPTED);
        hold("knob_moved_again", listed(rows, changes));
    }
}

/* C2, as a sheet. */
static void thin_sheet(void) {
    static const char sheet[] = "thin\t2\t2\t0000000000000000\twithin\t3FDFFFFFFFFFFFFF\t-\n"
                                "col\t3FF0000000000000\t3FF0000000000000\t3FF0000000000000\n"
                                "col\t4008000000000000\t3FF0000000000000\tBFF0000000000000\n";
    static const char expected[] = "ok\t0\t2\t0000000000000000\nw\t0\t3FD0000000000000\nw\t1\t3FE8000000000000\n\x5A";
    const uint8_t *text = text_room;
    uint8_t *answer = answer_room;
    const size_t text_length = sizeof sheet - 1, answer_length = KNOB_SHEET_ANSWER;
    memcpy(text_room, sheet, sizeof sheet);
    lend();
    hold("knob_thin_sheet, its length", CALL_knob_thin_sheet == sizeof expected - 2);
    hold("knob_thin_sheet", memcmp(answer_room, expected, sizeof expected - 1) == 0);
}

/* C1's sheet, with which word moved. */
static void moved_sheet(void) {
    static const char sheet[] = "thin\t2\t2\t0000000000000000\twithin\t3FE0000000000000\t-\n"
                                "col\t3FF0000000000000\t3FF0000000000000\t3FF0000000000000\n"
                                "col\t4008000000000000\t3FF0000000000000\tBFF0000000000000\n";
    static const char expected[] = "ok\t1\t1\t3FE0000000000000\nw\t0\t0000000000000000\nw\t1\t3FF0000000000000\n"
                                   "word\t1\t3FE0000000000000\nword\t0\t0000000000000000\n\x5A";
    const uint8_t *text = text_room;
    uint8_t *answer = answer_room;
    const size_t text_length = sizeof sheet - 1, answer_length = KNOB_MOVED_ANSWER;
    memcpy(text_room, sheet, sizeof sheet);
    lend();
    hold("knob_moved_sheet, its length", CALL_knob_moved_sheet == sizeof expected - 2);
    hold("knob_moved_sheet", memcmp(answer_room, expected, sizeof expected - 1) == 0);
}

/* A sheet of edition 2 with a cap, written, and read back; every number in it is another. */
static void written_and_read(void) {
    static const char sheet[] = "thin\t2\t3\t0123456789ABCDEF\twithin\tFFF0000000000007\t19\t2\n"
                                "col\t8000000000000000\t0000000000000011\t0000000000000012\t0000000000000013\n"
                                "col\t0000000000000022\t0000000000000014\t0000000000000015\t0000000000000016\n";
    static const uint64_t entries[] = {0x11, 0x12, 0x13, 0x14, 0x15, 0x16}, halves[] = {0x8000000000000000u, 0x22};
    static uint64_t matrix_bits[2049], weight_bits[33], first_bits[8];
    size_t ours = 1;
    {
        const uint64_t *matrix = entries, *weights = halves;
        const size_t matrix_length = 6, m = 2, n = 3, weights_length = 2, text_length = sizeof sheet - 1;
        const uint64_t seed = 0x0123456789ABCDEFu, allowance = 0xFFF0000000000007u, limit = 19;
        const uint32_t edition = 2, rule = 2;
        uint8_t *text = answer_room;
        size_t *length = &ours;
        lend();
        hold("knob_write_sheet, its number", CALL_knob_write_sheet == 0);
        hold("knob_write_sheet", ours == sizeof sheet - 1 && memcmp(answer_room, sheet, ours) == 0 && answer_room[ours] == 0x5A);
    }
    {
        const uint8_t *text = answer_room;
        uint64_t *matrix = matrix_bits, *weights = weight_bits, *first = first_bits;
        const size_t text_length = sizeof sheet - 1, matrix_length = 2048, weights_length = 32, first_length = 7;
        static const uint64_t seven[] = {2, 3, 0x0123456789ABCDEFu, 2, 2, 0xFFF0000000000007u, 19};
        hold("knob_read_sheet, its number", CALL_knob_read_sheet == 0);
        hold("knob_read_sheet, the matrix", memcmp(matrix_bits, entries, sizeof entries) == 0 && matrix_bits[6] == 0);
        hold("knob_read_sheet, the weights", memcmp(weight_bits, halves, sizeof halves) == 0 && weight_bits[2] == 0);
        hold("knob_read_sheet, the first line", memcmp(first_bits, seven, sizeof seven) == 0 && first_bits[7] == 0);
    }
}

/* A sheet whose first column lost a digit, and which has a line too many. */
static void salvage(void) {
    static const char sheet[] = "thin\t2\t1\t0123456789ABCDEF\ttarget\t7\ncol\t3FF0000000000000\t3FF000000000000\n"
                                "col\t0000000000000022\t8000000000000000\n\n";
    static const char expected[] = "thin\t1\t1\t0123456789ABCDEF\ttarget\t7\ncol\t0000000000000022\t8000000000000000\nlost\t2\nlost\t4\n\x5A";
    const uint8_t *text = text_room;
    uint8_t *answer = answer_room;
    const size_t text_length = sizeof sheet - 1, answer_length = KNOB_SHEET_ANSWER;
    memcpy(text_room, sheet, sizeof sheet);
    lend();
    hold("knob_salvage, its length", CALL_knob_salvage == sizeof expected - 2);
    hold("knob_salvage", memcmp(answer_room, expected, sizeof expected - 1) == 0);
}

int main(void) {
    draws();
    sparsify();
    sparsify_within();
    thin_all();
    thin_votes();
    discrepancy_coloring();
    margins();
    sparsify_bits();
    sparsify_within_bits();
    thin_bits();
    thin_all_bits();
    discrepancy_coloring_bits();
    margins_bits();
    moved();
    thin_sheet();
    moved_sheet();
    written_and_read();
    salvage();
    return wrong;
}
