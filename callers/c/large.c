/* Large shapes, on each engine that is fast: 2^20 rows of one number and 2^16 of sixteen.
 *
 * Three rows of each answer are compared with Horner's rule, an inverse must undo a transform, and a codeword be told
 * from none. No call may take as many seconds of the processor as sums would, and fifty calls must leave as much memory
 * as there was. With -DPARALLEL the calls are those of liktrob_parallel.h, on four threads.
 */
#include <malloc.h>
#include <signal.h>
#include <stdio.h>
#include <stdlib.h>
#include <string.h>
#include <sys/time.h>
#include <unistd.h>

#ifdef PARALLEL
#include "liktrob_parallel.h"
#define LIKTROB(FIELD, NAME, ...) liktrob_parallel_##FIELD##_##NAME(__VA_ARGS__, 4)
#else
#include "liktrob.h"
#define LIKTROB(FIELD, NAME, ...) liktrob_##FIELD##_##NAME(__VA_ARGS__)
#endif

/* A call takes less than a second. By sums the first shape would take twenty minutes, and the second more than a
 * minute. */
enum { SECONDS = 20, ADDED = 1, MOST_ROWS = 1 << 21 };

/* How often each call is made to see what it keeps. Threads that start and meet take their time on a busy machine. */
#ifdef PARALLEL
enum { HELD = 8 };
#else
enum { HELD = 50 };
#endif

/* What malloc keeps of small blocks counts as held. On threads it is to keep none for a thread, by GLIBC_TUNABLES. */
enum { KEPT = 1024 };

__extension__ typedef unsigned __int128 product;

static const uint32_t engines[] = {LIKTROB_DEFAULT, LIKTROB_RADIX_2_DIT, LIKTROB_RADIX_2_BOWERS,
                                   LIKTROB_RADIX_2_DIT_PARALLEL, LIKTROB_RADIX_2_DFT_SMALL_BATCH};
static int tried, wrong;

static void is_slow(int signal) {
    static const char text[] = "a call takes as long as sums would\n";
    (void)signal;
    _exit(write(1, text, sizeof text - 1) > 0 ? 1 : 2);
}

/* The clock of one call. */
static void start(void) {
    const struct itimerval seconds = {{0, 0}, {SECONDS, 0}};
    setitimer(ITIMER_PROF, &seconds, NULL);
}

static void expect(int is_right, const char *what, uint32_t engine, size_t height, size_t width) {
    tried++;
    if (is_right) return;
    wrong++;
    printf("%s of %zu rows of %zu on engine %u\n", what, height, width, engine);
}

static uint64_t power(uint64_t a, uint64_t exponent, uint64_t modulus) {
    uint64_t result = 1;
    for (; exponent > 0; exponent >>= 1, a = (uint64_t)((product)a * a % modulus))
        if (exponent & 1) result = (uint64_t)((product)result * a % modulus);
    return result;
}

static size_t reversed(size_t index, size_t height) {
    size_t result = 0;
    for (; height > 1; height >>= 1, index >>= 1) result = result << 1 | (index & 1);
    return result;
}

static size_t held(void) {
    struct mallinfo2 info = mallinfo2();
    return info.uordblks + info.hblkhd;
}

/* Columns on cosets of their own, there and back. There are none on threads. */
#ifdef PARALLEL
#define COLUMNS(FIELD)
#define HELD_COLUMNS(FIELD)
#else
#define COLUMNS(FIELD)                                                                                                 \
    memcpy(words, given, len * sizeof *words);                                                                         \
    start();                                                                                                           \
    status = LIKTROB(FIELD, coset_dft_columns, engine, words, len, width, 31, 3);                                      \
    expect(status == 0 && has_values_by_##FIELD(given, height, width, words, height, 31, 3, 0),                        \
           #FIELD " coset_dft_columns", engine, height, width);                                                        \
    start();                                                                                                           \
    status = LIKTROB(FIELD, coset_idft_columns, engine, words, len, width, 31, 3);                                     \
    expect(status == 0 && memcmp(words, given, len * sizeof *words) == 0, #FIELD " coset_idft_columns", engine,        \
           height, width);
#define HELD_COLUMNS(FIELD)                                                                                            \
    status |= LIKTROB(FIELD, coset_dft_columns, engine, words, len, 4, 31, 3);                                         \
    status |= LIKTROB(FIELD, coset_idft_columns, engine, words, len, 4, 31, 3);
#endif

#define LARGE(FIELD, WORD, DOUBLE, MODULUS, GENERATOR)                                                                 \
    /* Whether rows of values are those of the first and the last column's polynomial, of which column j lies on the   \
     * coset of shift * step^j. */                                                                                     \
    static int has_values_by_##FIELD(const WORD *coefficients, size_t height, size_t width, const WORD *values,        \
                                     size_t out_height, WORD shift, WORD step, int in_reverse) {                       \
        const size_t rows[] = {0, 1, out_height / 2 + 3};                                                              \
        uint64_t g = power(GENERATOR, (MODULUS - 1) / out_height, MODULUS);                                            \
        for (size_t at = 0; at < 3; at++) {                                                                            \
            const WORD *row = values + (in_reverse ? reversed(rows[at], out_height) : rows[at]) * width;               \
            for (size_t column = 0; column < width; column += width > 1 ? width - 1 : 1) {                             \
                uint64_t of_column = (uint64_t)((product)shift * power(step, column, MODULUS) % MODULUS);              \
                DOUBLE value = 0, x = (DOUBLE)((product)of_column * power(g, rows[at], MODULUS) % MODULUS);            \
                for (size_t i = height; i-- > 0;) value = (value * x + coefficients[i * width + column]) % MODULUS;    \
                if (row[column] != (WORD)value) return 0;                                                              \
            }                                                                                                          \
        }                                                                                                              \
        return 1;                                                                                                      \
    }                                                                                                                  \
                                                                                                                       \
    static int has_values_##FIELD(const WORD *coefficients, size_t height, size_t width, const WORD *values,           \
                                  size_t out_height, WORD shift, int in_reverse) {                                     \
        return has_values_by_##FIELD(coefficients, height, width, values, out_height, shift, 1, in_reverse);           \
    }                                                                                                                  \
                                                                                                                       \
    static void try_##FIELD(uint32_t engine, size_t height, size_t width, WORD *given, WORD *words, WORD *out) {       \
        size_t len = height * width, out_len = len << ADDED;                                                           \
        uint64_t next = 1;                                                                                             \
        uint32_t yes = 7;                                                                                              \
        for (size_t i = 0; i < len; i++) {                                                                             \
            next = next * 6364136223846793005u + 1442695040888963407u;                                                 \
            given[i] = (WORD)((next >> 8) % MODULUS);                                                                  \
        }                                                                                                              \
        memcpy(words, given, len * sizeof *words);                                                                     \
        start();                                                                                                       \
        uint32_t status = LIKTROB(FIELD, coset_dft, engine, words, len, width, 31);                                    \
        expect(status == 0 && has_values_##FIELD(given, height, width, words, height, 31, 0), #FIELD " coset_dft",     \
               engine, height, width);                                                                                 \
        start();                                                                                                       \
        status = LIKTROB(FIELD, coset_idft, engine, words, len, width, 31);                                            \
        expect(status == 0 && memcmp(words, given, len * sizeof *words) == 0, #FIELD " coset_idft", engine, height,    \
               width);                                                                                                 \
        start();                                                                                                       \
        status = LIKTROB(FIELD, coset_dft_padded, engine, given, len, width, ADDED, 31, out, out_len);                 \
        expect(status == 0 && has_values_##FIELD(given, height, width, out, height << ADDED, 31, 0),                   \
               #FIELD " coset_dft_padded", engine, height, width);                                                     \
        start();                                                                                                       \
        status = LIKTROB(FIELD, is_codeword, engine, out, out_len, width, ADDED, 31, &yes);                            \
        expect(status == 0 && yes == 1, #FIELD " is_codeword", engine, height << ADDED, width);                        \
        out[out_len - 1] ^= 1;                                                                                         \
        start();                                                                                                       \
        status = LIKTROB(FIELD, is_codeword, engine, out, out_len, width, ADDED, 31, &yes);                            \
        expect(status == 0 && yes == 0, #FIELD " is_codeword of none", engine, height << ADDED, width);                \
        status = LIKTROB(FIELD, coset_dft, engine, words, len, width, 1);                                              \
        start();                                                                                                       \
        status |= LIKTROB(FIELD, coset_lde, engine, words, len, width, ADDED, 31, out, out_len);                       \
        expect(status == 0 && has_values_##FIELD(given, height, width, out, height << ADDED, 31, 0),                   \
               #FIELD " coset_lde", engine, height, width);                                                            \
        start();                                                                                                       \
        status = LIKTROB(FIELD, coset_lde_bit_reversed, engine, words, len, width, ADDED, 31, out, out_len);           \
        expect(status == 0 && has_values_##FIELD(given, height, width, out, height << ADDED, 31, 1),                   \
               #FIELD " coset_lde_bit_reversed", engine, height, width);                                               \
        COLUMNS(FIELD)                                                                                                 \
    }                                                                                                                  \
                                                                                                                       \
    /* Calls of each kind, over and over. */                                                                           \
    static void hold_##FIELD(uint32_t engine, WORD *words, WORD *out) {                                                \
        const size_t len = 1 << 16, out_len = len << ADDED;                                                            \
        size_t before = 0;                                                                                             \
        uint32_t yes, status = 0;                                                                                      \
        memset(words, 0, len * sizeof *words);                                                                         \
        start();                                                                                                       \
        for (int i = 0; i <= HELD; i++) {                                                                              \
            /* After the first call the system has what it keeps for itself. */                                        \
            if (i == 1) before = held();                                                                               \
            status |= LIKTROB(FIELD, coset_dft, engine, words, len, 1, 31);                                            \
            status |= LIKTROB(FIELD, coset_idft, engine, words, len, 1, 31);                                           \
            status |= LIKTROB(FIELD, coset_lde, engine, words, len, 1, ADDED, 31, out, out_len);                       \
            status |= LIKTROB(FIELD, coset_lde_bit_reversed, engine, words, len, 1, ADDED, 31, out, out_len);          \
            status |= LIKTROB(FIELD, coset_dft_padded, engine, words, len, 1, ADDED, 31, out, out_len);                \
            status |= LIKTROB(FIELD, is_codeword, engine, words, len, 1, ADDED, 31, &yes);                             \
            HELD_COLUMNS(FIELD)                                                                                        \
        }                                                                                                              \
        size_t after = held();                                                                                         \
        if (after > before + KEPT) printf("%zu bytes more are held\n", after - before);                                \
        expect(status == 0 && after <= before + KEPT, #FIELD " calls", engine, len, 1);                                \
    }                                                                                                                  \
                                                                                                                       \
    static void try_all_##FIELD(void *given, void *words, void *out) {                                                 \
        for (size_t i = 0; i < sizeof engines / sizeof *engines; i++) {                                                \
            try_##FIELD(engines[i], 1 << 20, 1, given, words, out);                                                    \
            try_##FIELD(engines[i], 1 << 16, 16, given, words, out);                                                   \
            hold_##FIELD(engines[i], words, out);                                                                      \
        }                                                                                                              \
    }

LARGE(baby_bear, uint32_t, uint64_t, LIKTROB_BABY_BEAR_MODULUS, 31)
LARGE(koala_bear, uint32_t, uint64_t, LIKTROB_KOALA_BEAR_MODULUS, 3)
LARGE(goldilocks, uint64_t, product, LIKTROB_GOLDILOCKS_MODULUS, 7)

int main(void) {
    void *given = malloc(MOST_ROWS * sizeof(uint64_t)), *words = malloc(MOST_ROWS * sizeof(uint64_t));
    void *out = malloc(MOST_ROWS * sizeof(uint64_t));
    if (given == NULL || words == NULL || out == NULL || signal(SIGPROF, is_slow) == SIG_ERR) return 2;
    /* What was told stays where a call is too slow. */
    if (setvbuf(stdout, NULL, _IOLBF, BUFSIZ) != 0) return 2;
    try_all_baby_bear(given, words, out);
    try_all_koala_bear(given, words, out);
    try_all_goldilocks(given, words, out);
    printf("%d calls, %d wrong\n", tried, wrong);
    return wrong != 0 || tried == 0;
}
