/* knobthistle.h: the calls of libknobthistle.a, for C and C++.

   Link: cc host.c libknobthistle.a. The archive is for x86-64 Linux, or for Arm as the project's script oracle/host-archive makes it.
   It wants memcpy and memset of the C library and nothing else, takes no memory of its own and never traps: every call below answers
   for every argument. Each was proved to do what is said here. It is thread-safe: nothing is kept between calls, and calls may run side
   by side as long as what one of them writes is lent to no other.

   A draw's bits are the same on every machine: nothing is left to the platform's mathematical library. There are two draw editions:
   1, which shipped ensembles name, and 2, whose uniform numbers stay strictly between 0 and 1. A thinning takes either; a colouring
   called by itself draws by 1. */

#ifndef KNOBTHISTLE_H
#define KNOBTHISTLE_H

#include <stddef.h>
#include <stdint.h>

#ifdef __cplusplus
extern "C" {
#endif

/* The version of this header, and that of the archive: of its three figures, 1000000 times the first, 1000 times the second, and the
   third. */
#define KNOB_VERSION 1000
uint64_t knob_version(void);

/* The generator is SplitMix64. Its state is one 64-bit number, any number: start it at a seed of your choice. An output is a 64-bit
   number; making one adds 0x9E3779B97F4A7C15 to the state, modulo 2^64. The state must not be null. */

/* A uniform number from the next output: N = output >> 11, N + 0.5 rounded to a double, over 2^53. It is above 0 and at most 1: from
   N = 2^52 up the sum rounds to even, and N = 2^53 - 1 gives exactly 1.0. Moves the state on by one output. */
double knob_uniform(uint64_t *state);

/* A Gaussian number of mean 0 and variance 1 from the next two outputs, by Box and Muller's rule:
   knob_sqrt(-2 * knob_log_draw(first)) * knob_cos_draw(second), each product rounded to a double. Never a NaN and never infinite.
   Moves the state on by two outputs. */
double knob_gaussian(uint64_t *state);

/* The same draws by edition 2: N = output >> 12, N + 0.5, over 2^52. Both operations are exact, and the number is an odd multiple of
   2^-53 strictly between 0 and 1. (Its logarithm may still come out as +0.0: the rule gives it for the largest.) */
double knob_uniform_2(uint64_t *state);
double knob_gaussian_2(uint64_t *state);

/* IEEE 754's square root: the double nearest to the root, ties to even. -0.0 gives -0.0, +infinity itself; a NaN and everything below
   zero give a NaN. */
double knob_sqrt(double x);

/* The natural logarithm of the uniform number that this output of the generator gives. Never positive, and +0.0 where the uniform
   number is 1. Within 2^-40 of the series that fixes it. */
double knob_log_draw(uint64_t word);
double knob_log_draw_2(uint64_t word); /* by edition 2 */

/* The cosine of t, t being the double TAU (bits 401921FB54442D18) times the uniform number that this output of the generator gives,
   rounded once. Within [-1, 1], and within 2^-45 of the cosine's series. */
double knob_cos_draw(uint64_t word);
double knob_cos_draw_2(uint64_t word); /* by edition 2 */

/* ---- Thinning and colouring: what all calls share ----

   A matrix of m columns and n rows is one array of m*n doubles, column after column: entry (row i, column j) is matrix[j*n + i].
   At most KNOB_MAX_COLUMNS columns and KNOB_MAX_ROWS rows. Every array is a pointer and then the number of its elements. No pointer may be
   null, also where the number is 0, and no array that is written (output, columns, kept, numbers, indices, answer, *change, *count) may
   overlap another.

   Scratch is lent by the caller and may hold anything before the call:
     numbers: at least m*(n+1) + m*m + 16*m + 8*(n+1) doubles    (KNOB_NUMBERS)
     indices: at least 8*(m+n+1) 32-bit numbers                 (KNOB_INDICES)
   An accepted call leaves all of both zero, whatever their length. Matrix and weights are never changed.

   Each call answers a number: 0 accepted, else the first below that applies and that the call uses (enum knob_number has names).
   The order is that of the tests: 12 stands between 1 and 2, 13 between 2 and 3, and 14 between 6 and 7; 15 stands in the place of 7 and of
   11, and where there is neither of them directly after 4.

     no.  given exactly when                                                      sparsify  within  coloring  change, turned
      1   the allowance is negative or a NaN (-0.0 is accepted)                                x
     12   the allowance is infinite (the largest finite one is accepted)                       x
      2   target or cap is 0                                                         x         x
     13   the edition is neither 1 nor 2                                             x         x
      3   m > 256 or n > 4096                                                        x         x        x           x
      4   matrix, weights, second weights or output has another length               x         x        x           x
          than m and n say
      5   m = 0 or n = 0                                                             x         x
      6   a scratch is too short                                                     x         x        x
     14   a label is neither 1 nor -1: knob_thin_votes alone, which says what else it refuses
     15   a spare bit is set: the calls on votes as bits alone, which say what else they refuse
      7   a matrix entry is not in [-1, 1]; a NaN is not                             x         x
      8   a weight is not finite                                                     x         x
      9   the sum of the weights' magnitudes, in doubles, is 0 or infinite           x         x
     10   used for nothing
     11   an entry is not finite or above 2^32 in magnitude                                             x
     16   a buffer is shorter than the text that is to be written to it: knob_write_sheet alone, which says its own order

   A refusal answers its number with 0 in every other field, and changes neither output nor scratch: every double is the one that it was.
   (That a NaN among them keeps its pattern is tested and not proved: a proof here knows one NaN.)

   Equal arguments give equal bits, on every machine. */

#define KNOB_MAX_COLUMNS 256
#define KNOB_MAX_ROWS 4096
#define KNOB_MAX_STAGES 9 /* a pass leaves at most half the nonzeros, rounded down: from 256 there are at most nine stages, 0 to 8 */

enum knob_number {
    KNOB_ACCEPTED = 0,
    KNOB_REFUSED_ALLOWANCE = 1,
    KNOB_REFUSED_ZERO = 2,
    KNOB_REFUSED_SIZE = 3,
    KNOB_REFUSED_LENGTH = 4,
    KNOB_REFUSED_EMPTY = 5,
    KNOB_REFUSED_SCRATCH = 6,
    KNOB_REFUSED_ENTRY = 7,
    KNOB_REFUSED_WEIGHT = 8,
    KNOB_REFUSED_SUM = 9,
    KNOB_REFUSED_COLORING_ENTRY = 11,
    KNOB_REFUSED_INFINITE_ALLOWANCE = 12,
    KNOB_REFUSED_EDITION = 13,
    KNOB_REFUSED_LABEL = 14,
    KNOB_REFUSED_SPARE_BIT = 15,
    KNOB_REFUSED_BUFFER = 16
};

#define KNOB_NUMBERS(m, n) ((size_t)(m) * ((size_t)(n) + 1) + (size_t)(m) * (size_t)(m) + 16 * (size_t)(m) + 8 * ((size_t)(n) + 1))
#define KNOB_INDICES(m, n) (8 * ((size_t)(m) + (size_t)(n) + 1))

/* The answer to a thinning job. */
typedef struct {
    uint64_t number;   /* 0, or why the job was refused; then the rest is 0 */
    uint64_t stage;    /* the stage returned: 0 the normalised weights, and one more with each pass that was kept */
    uint64_t nonzeros; /* the weights returned that are not 0 */
    double change;     /* the largest change of a row's margin from the normalised weights to those returned */
    uint64_t directions; /* the directions that all passes drew, one tried and discarded among them: at most 8*m, of m Gaussians at most */
    uint64_t sweeps;     /* the sweeps that all passes made, that one among them too: at most 1600 */
    uint64_t path_nonzeros[KNOB_MAX_STAGES]; /* the path: nonzeros of each stage from 0 to the one returned, and zeros after it */
    double path_change[KNOB_MAX_STAGES];     /* and the change of each; nonzeros and change above are those at stage */
} knob_answer;

/* The answer to a colouring. */
typedef struct {
    uint64_t number;     /* 0, or why it was refused; then the rest is 0 */
    uint64_t directions; /* how many directions were drawn, one that was broken off among them: at most 2*m, hence at most 2*m*m Gaussians */
    uint64_t sweeps;     /* how many sweeps local search made, the last, which turns nothing, among them: at most 100 */
} knob_colored;

/* Thins weights to at most `target` nonzeros: the first stage that has no more. The weights are divided by the sum of their
   magnitudes (stage 0); each pass then keeps the largest third as it is and, of the rest, about a quarter, doubled twice, so that every
   row's margin, the sum of entry times weight over the columns, stays near what it was. Signs are kept, and a weight that is 0 stays 0.
   The seed starts the generator, which runs on through all passes and draws by the edition, 1 or 2. The weights thinned are written
   to output, m of them. */
#if !defined(__aarch64__) /* there, see the end */
knob_answer knob_sparsify(const double *matrix, size_t matrix_length, size_t m, size_t n,
                          const double *weights, size_t weights_length, uint64_t seed, uint32_t edition, size_t target,
                          double *output, size_t output_length,
                          double *numbers, size_t numbers_length, uint32_t *indices, size_t indices_length);
#endif

/* Thins weights as far as no margin changes by more than `allowance` from stage 0: the last stage before the first that exceeds it, or
   the one with a single nonzero. If capped is not 0, `cap` comes first: the answer is the first stage that has a single nonzero, or that
   has at most cap and either measures above the allowance or is followed by one that does. So passes go on until at most cap nonzeros
   are left, even where the allowance is exceeded (see `change` in the answer), and from there while stages measure within the allowance
   again. If capped is 0 there is no cap, and the value of cap does not matter. */
#if !defined(__aarch64__) /* there, see the end */
knob_answer knob_sparsify_within(const double *matrix, size_t matrix_length, size_t m, size_t n,
                                 const double *weights, size_t weights_length, uint64_t seed, uint32_t edition,
                                 double allowance, uint32_t capped, size_t cap,
                                 double *output, size_t output_length,
                                 double *numbers, size_t numbers_length, uint32_t *indices, size_t indices_length);
#endif

/* Thins several weight vectors over one matrix in one call. Each of at most KNOB_MAX_ITEMS items has its weights, m of them, item after
   item in weights, and its job: seeds[k], editions[k], and the rule that rules[k] names, 0 for a target, 1 for an allowance without a cap,
   2 for an allowance with a cap; limits[k] is the target or the cap, and what a rule does not use is not looked at. Another number names
   neither target nor cap and is refused by 2. The weights thinned are written to output, item after item.

   The matrix is tested once. The call as a whole is refused first, and then nothing is written and every item's answer is 0: 3 (also for
   more than KNOB_MAX_ITEMS items), 4 (also for a list of another length than items says: weights and output items*m, the others items),
   5 (also with no items), 6 and 7, in this order. Else `number` is 0, and each item has exactly the answer and the weights that the single
   call gives: where that refuses it, by 1, 12, 2, 13, 8 or 9, in this order, its answer has the number and zeros, and its part of output
   is as it was; the other items go on. The scratch is left zero, also with no items or with refused ones. */
#define KNOB_MAX_ITEMS 64
typedef struct {
    uint64_t number;                    /* 0, or why the call as a whole was refused */
    knob_answer items[KNOB_MAX_ITEMS];  /* the answer to each item, and zeros past the last */
} knob_answers;

#if !defined(__aarch64__) /* there, see the end */
knob_answers knob_thin_all(const double *matrix, size_t matrix_length, size_t m, size_t n, size_t items,
                           const double *weights, size_t weights_length, const uint64_t *seeds, size_t seeds_length,
                           const uint32_t *editions, size_t editions_length, const uint32_t *rules, size_t rules_length,
                           const double *allowances, size_t allowances_length, const uint64_t *limits, size_t limits_length,
                           double *output, size_t output_length,
                           double *numbers, size_t numbers_length, uint32_t *indices, size_t indices_length);
#endif

/* Thins from votes: confidences[j*n + i] is how sure hypothesis j is of word i, in [-1, 1], labels[i] says what word i is, 1 or -1, and the
   margin of each is the label times the confidence. The rule is named by a number, 0 for a target, 1 for an allowance without a cap, 2 for
   an allowance with a cap; limit is the target or the cap, and what a rule does not use is not looked at. Another number is refused by 2.
   The answer is that of the job on the matrix of margins. The columns that are left, those whose weight is not 0, are written to columns by
   their numbers, from 0 and rising, and their weights to kept, at the fronts of both; zeros stand behind them. There are answer.nonzeros.

   Refusals 1, 12, 2, 13, 3, 4, 5, 6, 14, 7, 8, 9, the first in this order: 4 also where labels_length is not n, or columns_length or
   kept_length is not m; 14 a label that is neither 1 nor -1; 7 a confidence that is not in [-1, 1]. A refusal writes nothing. */
#if !defined(__aarch64__) /* there, see the end */
knob_answer knob_thin_votes(const double *confidences, size_t confidences_length, const int8_t *labels, size_t labels_length,
                            size_t m, size_t n, const double *weights, size_t weights_length, uint64_t seed, uint32_t edition,
                            uint32_t rule, double allowance, size_t limit,
                            uint32_t *columns, size_t columns_length, double *kept, size_t kept_length,
                            double *numbers, size_t numbers_length, uint32_t *indices, size_t indices_length);
#endif

/* A signing of the columns by 1 and -1 (m of them, written to output) that tries to keep every row's sum of entry times sign small.
   Entries may be any doubles up to 2^32 in magnitude. The seed starts the generator, which draws by edition 1. Answers 0, 3, 4, 6
   or 11. No columns or no rows are fine. */
#if !defined(__aarch64__) /* there, see the end */
knob_colored knob_discrepancy_coloring(const double *matrix, size_t matrix_length, size_t m, size_t n, uint64_t seed,
                                       int8_t *output, size_t output_length,
                                       double *numbers, size_t numbers_length, uint32_t *indices, size_t indices_length);
#endif

/* The largest change of a row's margin when the weights `before` are replaced by `after`, both used as given: per row the running sum
   of entry * (before - after) over the columns in order, columns whose difference is 0 left out; then the largest magnitude, NaNs left
   out, from 0.0. Entries and weights may be any doubles. Answers 0, 3 or 4; *change is 0 on a refusal. */
uint64_t knob_max_margin_change(const double *matrix, size_t matrix_length, size_t m, size_t n,
                                const double *before, size_t before_length, const double *after, size_t after_length,
                                double *change);

/* The number of words that turn. Each row has its own threshold, n of them; a row counts where its margin is above its threshold by
   `before` and not by `after`, or by `after` and not by `before`. A margin is the running sum of entry * weight over the columns in
   order, from 0.0; one that equals its threshold is not above it, nor is a NaN. Entries and weights may be any doubles. Answers 0, 3, 4
   or, where a threshold is not finite, 8; *count is 0 on a refusal. */
uint64_t knob_turned_words(const double *matrix, size_t matrix_length, size_t m, size_t n,
                           const double *before, size_t before_length, const double *after, size_t after_length,
                           const double *thresholds, size_t thresholds_length, uint64_t *count);

/* ---- Votes as bits ----

   A matrix whose entries are all 1 or -1 may come as one bit an entry, set for -1. A column of n rows is KNOB_BYTES(n) bytes, row 0 the lowest
   bit of the first: entry (row i, column j) is -1 where (bits[j*KNOB_BYTES(n) + i/8] >> (i%8)) & 1 is 1, and else 1. The bits of a column's
   last byte that stand for no row are spare, and must be 0. The bits are read where they stand: no copy of them in doubles is made.

   Of the seven calls below six are those above with _bits behind their names. Each answers, writes and leaves exactly what that one does for
   the matrix of doubles that the bits stand for, and wants as much scratch. Only the refusals differ: 4 measures bytes, of which there must
   be m*KNOB_BYTES(n), and 15, a spare bit set, is given where the other call gives 7 or 11, and else directly after 4. The order is

     thinning           1, 12, 2, 13, 3, 4, 5, 6, 15, 8, 9
     several items      3, 4, 5, 6, 15 of the call as a whole; then of each item 1, 12, 2, 13, 8, 9
     colouring          3, 4, 6, 15
     change             3, 4, 15
     turned words       3, 4, 15, 8 */
#define KNOB_BYTES(n) (((size_t)(n) + 7) / 8)

/* knob_sparsify on bits. */
#if !defined(__aarch64__) /* there, see the end */
knob_answer knob_sparsify_bits(const uint8_t *bits, size_t bits_length, size_t m, size_t n,
                               const double *weights, size_t weights_length, uint64_t seed, uint32_t edition, size_t target,
                               double *output, size_t output_length,
                               double *numbers, size_t numbers_length, uint32_t *indices, size_t indices_length);
#endif

/* knob_sparsify_within on bits. */
#if !defined(__aarch64__) /* there, see the end */
knob_answer knob_sparsify_within_bits(const uint8_t *bits, size_t bits_length, size_t m, size_t n,
                                      const double *weights, size_t weights_length, uint64_t seed, uint32_t edition,
                                      double allowance, uint32_t capped, size_t cap,
                                      double *output, size_t output_length,
                                      double *numbers, size_t numbers_length, uint32_t *indices, size_t indices_length);
#endif

/* Both in one: the rule is named by a number, 0 for a target, 1 for an allowance without a cap, 2 for an allowance with a cap; limit is the
   target or the cap, and what a rule does not use is not looked at. Another number is refused by 2. */
#if !defined(__aarch64__) /* there, see the end */
knob_answer knob_thin_bits(const uint8_t *bits, size_t bits_length, size_t m, size_t n,
                           const double *weights, size_t weights_length, uint64_t seed, uint32_t edition,
                           uint32_t rule, double allowance, size_t limit,
                           double *output, size_t output_length,
                           double *numbers, size_t numbers_length, uint32_t *indices, size_t indices_length);
#endif

/* knob_thin_all on bits: several weight vectors over one matrix of votes. The bits are tested once. A refusal of the call as a whole, also 3
   for more than KNOB_MAX_ITEMS items, writes nothing, and every item's answer is 0; an item that is refused by itself has its part of output
   as it was, and the other items go on. */
#if !defined(__aarch64__) /* there, see the end */
knob_answers knob_thin_all_bits(const uint8_t *bits, size_t bits_length, size_t m, size_t n, size_t items,
                                const double *weights, size_t weights_length, const uint64_t *seeds, size_t seeds_length,
                                const uint32_t *editions, size_t editions_length, const uint32_t *rules, size_t rules_length,
                                const double *allowances, size_t allowances_length, const uint64_t *limits, size_t limits_length,
                                double *output, size_t output_length,
                                double *numbers, size_t numbers_length, uint32_t *indices, size_t indices_length);
#endif

/* knob_discrepancy_coloring on bits. No columns or no rows are fine. */
#if !defined(__aarch64__) /* there, see the end */
knob_colored knob_discrepancy_coloring_bits(const uint8_t *bits, size_t bits_length, size_t m, size_t n, uint64_t seed,
                                            int8_t *output, size_t output_length,
                                            double *numbers, size_t numbers_length, uint32_t *indices, size_t indices_length);
#endif

/* knob_max_margin_change on bits. Weights may be any doubles; *change is 0 on a refusal. */
uint64_t knob_max_margin_change_bits(const uint8_t *bits, size_t bits_length, size_t m, size_t n,
                                     const double *before, size_t before_length, const double *after, size_t after_length,
                                     double *change);

/* knob_turned_words on bits. Weights may be any doubles; *count is 0 on a refusal. */
uint64_t knob_turned_words_bits(const uint8_t *bits, size_t bits_length, size_t m, size_t n,
                                const double *before, size_t before_length, const double *after, size_t after_length,
                                const double *thresholds, size_t thresholds_length, uint64_t *count);

/* The answer of a sheet: text bytes in, answer bytes out. The first line of a sheet is `thin`, m (at most 32), n (at most 64), the seed,
   and then `target` and a count, or `within`, an allowance, and a cap or `-`, and for edition 2 a last field `2`; then there is a
   line for each column: `col`, its weight and its n entries. Fields are parted by single tabs, every line ends in a newline,
   doubles and the seed are the 16 upper-case hex digits of their bits, counts are decimal without leading zeros and at most
   4294967295. The answer is `ok`, stage, nonzeros and change and then a line `w`, index, weight for each column; or `refused` and
   the number; or `bad` and the number of the first line that is off the form, from 1. Any bytes may be given. Returns how many
   bytes were written to answer; where the answer is longer than answer_length, 0, and nothing is written. KNOB_SHEET_ANSWER bytes
   are enough for every answer. Uses about 80 KiB of stack. */
#define KNOB_SHEET_ANSWER 1342
size_t knob_thin_sheet(const uint8_t *text, size_t text_length, uint8_t *answer, size_t answer_length);

/* Writes the text of a sheet, which knob_thin_sheet reads, from lists of bits: matrix, weights, seed and allowance are the bits of
   doubles and of the seed, so that every NaN keeps its pattern and every zero its sign. edition is 1, which is not written, or 2. rule is
   0 for a target, 1 for an allowance without a cap, 2 for one with a cap; limit is the target or the cap, and what a rule does not use is
   ignored. Answers 0, or the first of 2 (another rule), 3 (m above 32, n above 64, a limit above 4294967295), 4 (lists of other lengths),
   13 (another edition), 16 (the text is longer than text_length). *length is the length of the text, 0 on a refusal; the bytes of text
   behind it stay, and all of them on a refusal. KNOB_SHEET_TEXT bytes are enough for every sheet. Uses about 38 KiB of stack. */
#define KNOB_SHEET_TEXT 35572
uint64_t knob_write_sheet(const uint64_t *matrix, size_t matrix_length, size_t m, size_t n,
                          const uint64_t *weights, size_t weights_length, uint64_t seed, uint32_t edition,
                          uint32_t rule, uint64_t allowance, uint64_t limit,
                          uint8_t *text, size_t text_length, size_t *length);

/* Reads a sheet as bits: matrix and weights to the fronts of their lists, and to first m, n, the seed, the edition, the rule, the bits
   of the allowance and the limit, 0 where the rule has none. Answers 0; or the number of the first wrong line, from 1; or, before that,
   UINT64_MAX where matrix_length is below 2048, weights_length below 32 or first_length below 7. Only with 0 is anything written. */
uint64_t knob_read_sheet(const uint8_t *text, size_t text_length, uint64_t *matrix, size_t matrix_length,
                         uint64_t *weights, size_t weights_length, uint64_t *first, size_t first_length);

/* What is good of a damaged sheet that is whole in memory: of the m lines after the first, or as many as there are, those that are columns'
   lines of the form, behind the first line with their number in the place of m; then a line `lost` and its number, from 1, for each other
   line after the first; a last piece without a newline is such a line. Where the first line is wrong it is `bad` and 1 alone, and where m
   is above 0 and no column is left `bad` and 2 alone. Any bytes may be given. Returns how many bytes were written to answer; where the
   text is longer than answer_length, 0, and nothing is written. Uses about 72 KiB of stack. */
size_t knob_salvage(const uint8_t *text, size_t text_length, uint8_t *answer, size_t answer_length);

/* Which word moved: the change of every row when the weights before are replaced by after, both used as given. A change is signed: the
   running sum of u (before - after) over the columns. rows[k] is the row that stands at place k by the magnitude of its change, from
   the largest down, the smaller row first where two are equal, and changes[k] is its change; every row is there once, and the magnitude
   of changes[0] is what knob_max_margin_change measures. rows and changes have exactly n places. Refusals 3, 4, 7, and 8, which here is
   also given for a weight above 1 in magnitude; a refusal writes nothing. */
uint64_t knob_moved(const double *matrix, size_t matrix_length, size_t m, size_t n,
                    const double *before, size_t before_length, const double *after, size_t after_length,
                    uint32_t *rows, size_t rows_length, double *changes, size_t changes_length);

/* The same list, brought up to date: rows holds what an earlier call left there. It takes less time where few rows have changed places.
   The result is that of knob_moved, whatever the lists held. */
uint64_t knob_moved_again(const double *matrix, size_t matrix_length, size_t m, size_t n,
                          const double *before, size_t before_length, const double *after, size_t after_length,
                          uint32_t *rows, size_t rows_length, double *changes, size_t changes_length);

/* The answer of a sheet as knob_thin_sheet gives it, and behind an `ok` answer a line `word`, row, change for each row, from 0, in the
   order of knob_moved: the change from the normalized weights to those that the answer has, its bits as 16 hex digits. Returns how many
   bytes were written to answer; where the answer is longer than answer_length, 0, and nothing is written. KNOB_MOVED_ANSWER bytes are
   enough for every answer. Uses about 119 KiB of stack. */
#define KNOB_MOVED_ANSWER 4094
size_t knob_moved_sheet(const uint8_t *text, size_t text_length, uint8_t *answer, size_t answer_length);

#if defined(__aarch64__)
/* On Arm the archive's calls write a record through an address, their first parameter, which is not how C returns one there. So the
   ten are declared as they are, and each name then stands for a function of the form above. */
knob_colored *knob_discrepancy_coloring(knob_colored *answer, const double *matrix, size_t matrix_length, size_t m, size_t n, uint64_t seed,
                                        int8_t *output, size_t output_length,
                                        double *numbers, size_t numbers_length, uint32_t *indices, size_t indices_length);
knob_answer *knob_sparsify(knob_answer *answer, const double *matrix, size_t matrix_length, size_t m, size_t n,
                           const double *weights, size_t weights_length, uint64_t seed, uint32_t edition, size_t target,
                           double *output, size_t output_length,
                           double *numbers, size_t numbers_length, uint32_t *indices, size_t indices_length);
knob_answer *knob_sparsify_within(knob_answer *answer, const double *matrix, size_t matrix_length, size_t m, size_t n,
                                  const double *weights, size_t weights_length, uint64_t seed, uint32_t edition,
                                  double allowance, uint32_t capped, size_t cap,
                                  double *output, size_t output_length,
                                  double *numbers, size_t numbers_length, uint32_t *indices, size_t indices_length);

knob_answers *knob_thin_all(knob_answers *answer, const double *matrix, size_t matrix_length, size_t m, size_t n, size_t items,
                            const double *weights, size_t weights_length, const uint64_t *seeds, size_t seeds_length,
                            const uint32_t *editions, size_t editions_length, const uint32_t *rules, size_t rules_length,
                            const double *allowances, size_t allowances_length, const uint64_t *limits, size_t limits_length,
                            double *output, size_t output_length,
                            double *numbers, size_t numbers_length, uint32_t *indices, size_t indices_length);

knob_answer *knob_thin_votes(knob_answer *answer, const double *confidences, size_t confidences_length,
                             const int8_t *labels, size_t labels_length, size_t m, size_t n,
                             const double *weights, size_t weights_length, uint64_t seed, uint32_t edition,
                             uint32_t rule, double allowance, size_t limit,
                             uint32_t *columns, size_t columns_length, double *kept, size_t kept_length,
                             double *numbers, size_t numbers_length, uint32_t *indices, size_t indices_length);

knob_answer *knob_sparsify_bits(knob_answer *answer, const uint8_t *bits, size_t bits_length, size_t m, size_t n,
                                const double *weights, size_t weights_length, uint64_t seed, uint32_t edition, size_t target,
                                double *output, size_t output_length,
                                double *numbers, size_t numbers_length, uint32_t *indices, size_t indices_length);

knob_answer *knob_sparsify_within_bits(knob_answer *answer, const uint8_t *bits, size_t bits_length, size_t m, size_t n,
                                       const double *weights, size_t weights_length, uint64_t seed, uint32_t edition,
                                       double allowance, uint32_t capped, size_t cap,
                                       double *output, size_t output_length,
                                       double *numbers, size_t numbers_length, uint32_t *indices, size_t indices_length);

knob_answer *knob_thin_bits(knob_answer *answer, const uint8_t *bits, size_t bits_length, size_t m, size_t n,
                            const double *weights, size_t weights_length, uint64_t seed, uint32_t edition,
                            uint32_t rule, double allowance, size_t limit,
                            double *output, size_t output_length,
                            double *numbers, size_t numbers_length, uint32_t *indices, size_t indices_length);

knob_answers *knob_thin_all_bits(knob_answers *answer, const uint8_t *bits, size_t bits_length, size_t m, size_t n, size_t items,
                                 const double *weights, size_t weights_length, const uint64_t *seeds, size_t seeds_length,
                                 const uint32_t *editions, size_t editions_length, const uint32_t *rules, size_t rules_length,
                                 const double *allowances, size_t allowances_length, const uint64_t *limits, size_t limits_length,
                                 double *output, size_t output_length,
                                 double *numbers, size_t numbers_length, uint32_t *indices, size_t indices_length);

knob_colored *knob_discrepancy_coloring_bits(knob_colored *answer, const uint8_t *bits, size_t bits_length, size_t m, size_t n, uint64_t seed,
                                             int8_t *output, size_t output_length,
                                             double *numbers, size_t numbers_length, uint32_t *indices, size_t indices_length);

static inline knob_colored knob_discrepancy_coloring_returned(const double *matrix, size_t matrix_length, size_t m, size_t n, uint64_t seed,
                                                              int8_t *output, size_t output_length,
                                                              double *numbers, size_t numbers_length,
                                                              uint32_t *indices, size_t indices_length) {
    knob_colored answer;
    return *knob_discrepancy_coloring(&answer, matrix, matrix_length, m, n, seed, output, output_length, numbers, numbers_length,
                                      indices, indices_length);
}

static inline knob_answer knob_sparsify_returned(const double *matrix, size_t matrix_length, size_t m, size_t n,
                                                 const double *weights, size_t weights_length, uint64_t seed, uint32_t edition, size_t target,
                                                 double *output, size_t output_length,
                                                 double *numbers, size_t numbers_length, uint32_t *indices, size_t indices_length) {
    knob_answer answer;
    return *knob_sparsify(&answer, matrix, matrix_length, m, n, weights, weights_length, seed, edition, target, output, output_length,
                          numbers, numbers_length, indices, indices_length);
}

static inline knob_answer knob_sparsify_within_returned(const double *matrix, size_t matrix_length, size_t m, size_t n,
                                                        const double *weights, size_t weights_length, uint64_t seed, uint32_t edition,
                                                        double allowance, uint32_t capped, size_t cap,
                                                        double *output, size_t output_length,
                                                        double *numbers, size_t numbers_length, uint32_t *indices, size_t indices_length) {
    knob_answer answer;
    return *knob_sparsify_within(&answer, matrix, matrix_length, m, n, weights, weights_length, seed, edition, allowance, capped, cap,
                                 output, output_length, numbers, numbers_length, indices, indices_length);
}

static inline knob_answers knob_thin_all_returned(const double *matrix, size_t matrix_length, size_t m, size_t n, size_t items,
                                                  const double *weights, size_t weights_length, const uint64_t *seeds, size_t seeds_length,
                                                  const uint32_t *editions, size_t editions_length,
                                                  const uint32_t *rules, size_t rules_length,
                                                  const double *allowances, size_t allowances_length,
                                                  const uint64_t *limits, size_t limits_length,
                                                  double *output, size_t output_length,
                                                  double *numbers, size_t numbers_length, uint32_t *indices, size_t indices_length) {
    knob_answers answer;
    return *knob_thin_all(&answer, matrix, matrix_length, m, n, items, weights, weights_length, seeds, seeds_length,
                          editions, editions_length, rules, rules_length, allowances, allowances_length, limits, limits_length,
                          output, output_length, numbers, numbers_length, indices, indices_length);
}

static inline knob_answer knob_thin_votes_returned(const double *confidences, size_t confidences_length,
                                                   const int8_t *labels, size_t labels_length, size_t m, size_t n,
                                                   const double *weights, size_t weights_length, uint64_t seed, uint32_t edition,
                                                   uint32_t rule, double allowance, size_t limit,
                                                   uint32_t *columns, size_t columns_length, double *kept, size_t kept_length,
                                                   double *numbers, size_t numbers_length, uint32_t *indices, size_t indices_length) {
    knob_answer answer;
    return *knob_thin_votes(&answer, confidences, confidences_length, labels, labels_length, m, n, weights, weights_length, seed, edition,
                            rule, allowance, limit, columns, columns_length, kept, kept_length, numbers, numbers_length,
                            indices, indices_length);
}

static inline knob_answer knob_sparsify_bits_returned(const uint8_t *bits, size_t bits_length, size_t m, size_t n,
                                                      const double *weights, size_t weights_length, uint64_t seed, uint32_t edition,
                                                      size_t target, double *output, size_t output_length,
                                                      double *numbers, size_t numbers_length, uint32_t *indices, size_t indices_length) {
    knob_answer answer;
    return *knob_sparsify_bits(&answer, bits, bits_length, m, n, weights, weights_length, seed, edition, target, output, output_length,
                               numbers, numbers_length, indices, indices_length);
}

static inline knob_answer knob_sparsify_within_bits_returned(const uint8_t *bits, size_t bits_length, size_t m, size_t n,
                                                             const double *weights, size_t weights_length, uint64_t seed, uint32_t edition,
                                                             double allowance, uint32_t capped, size_t cap,
                                                             double *output, size_t output_length,
                                                             double *numbers, size_t numbers_length,
                                                             uint32_t *indices, size_t indices_length) {
    knob_answer answer;
    return *knob_sparsify_within_bits(&answer, bits, bits_length, m, n, weights, weights_length, seed, edition, allowance, capped, cap,
                                      output, output_length, numbers, numbers_length, indices, indices_length);
}

static inline knob_answer knob_thin_bits_returned(const uint8_t *bits, size_t bits_length, size_t m, size_t n,
                                                  const double *weights, size_t weights_length, uint64_t seed, uint32_t edition,
                                                  uint32_t rule, double allowance, size_t limit,
                                                  double *output, size_t output_length,
                                                  double *numbers, size_t numbers_length, uint32_t *indices, size_t indices_length) {
    knob_answer answer;
    return *knob_thin_bits(&answer, bits, bits_length, m, n, weights, weights_length, seed, edition, rule, allowance, limit,
                           output, output_length, numbers, numbers_length, indices, indices_length);
}

static inline knob_answers knob_thin_all_bits_returned(const uint8_t *bits, size_t bits_length, size_t m, size_t n, size_t items,
                                                       const double *weights, size_t weights_length,
                                                       const uint64_t *seeds, size_t seeds_length,
                                                       const uint32_t *editions, size_t editions_length,
                                                       const uint32_t *rules, size_t rules_length,
                                                       const double *allowances, size_t allowances_length,
                                                       const uint64_t *limits, size_t limits_length,
                                                       double *output, size_t output_length,
                                                       double *numbers, size_t numbers_length, uint32_t *indices, size_t indices_length) {
    knob_answers answer;
    return *knob_thin_all_bits(&answer, bits, bits_length, m, n, items, weights, weights_length, seeds, seeds_length,
                               editions, editions_length, rules, rules_length, allowances, allowances_length, limits, limits_length,
                               output, output_length, numbers, numbers_length, indices, indices_length);
}

static inline knob_colored knob_discrepancy_coloring_bits_returned(const uint8_t *bits, size_t bits_length, size_t m, size_t n, uint64_t seed,
                                                                   int8_t *output, size_t output_length,
                                                                   double *numbers, size_t numbers_length,
                                                                   uint32_t *indices, size_t indices_length) {
    knob_colored answer;
    return *knob_discrepancy_coloring_bits(&answer, bits, bits_length, m, n, seed, output, output_length, numbers, numbers_length,
                                           indices, indices_length);
}

#define knob_discrepancy_coloring knob_discrepancy_coloring_returned
#define knob_sparsify knob_sparsify_returned
#define knob_sparsify_within knob_sparsify_within_returned
#define knob_thin_all knob_thin_all_returned
#define knob_thin_votes knob_thin_votes_returned
#define knob_sparsify_bits knob_sparsify_bits_returned
#define knob_sparsify_within_bits knob_sparsify_within_bits_returned
#define knob_thin_bits knob_thin_bits_returned
#define knob_thin_all_bits knob_thin_all_bits_returned
#define knob_discrepancy_coloring_bits knob_discrepancy_coloring_bits_returned
#endif

#ifdef __cplusplus
}
#endif

#endif
