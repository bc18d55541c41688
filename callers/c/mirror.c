/* A library with the names of liktrob's that answers what it was given, to see what a caller hands over.
 *
 * Each function writes its arguments to the numbers of its answer, one after another and again from the first: the
 * function's number, engine, len, width, added bits, shift, out_len and threads, each cut to the word. A test of a
 * codeword answers 1 where the numbers that it was lent are these. Calls without threads write 0 for them. The step of
 * calls on columns stands in the place of added bits, and a point is the sum of its arguments.
 */
#include "liktrob_parallel.h"

enum { ARGUMENTS = 8 };

const char *liktrob_version(void) { return LIKTROB_VERSION; }

#define FILL(WORD)                                                                                                     \
    static uint32_t fill_##WORD(WORD *out, size_t n, const uint64_t *given) {                                          \
        for (size_t i = 0; i < n; i++) out[i] = (WORD)given[i % ARGUMENTS];                                            \
        return LIKTROB_OK;                                                                                             \
    }                                                                                                                  \
                                                                                                                       \
    static uint32_t test_##WORD(const WORD *words, size_t n, const uint64_t *given, uint32_t *answer) {                \
        *answer = 1;                                                                                                   \
        for (size_t i = 0; i < n; i++)                                                                                 \
            if (words[i] != (WORD)given[i % ARGUMENTS]) *answer = 0;                                                   \
        return LIKTROB_OK;                                                                                             \
    }

FILL(uint32_t)
FILL(uint64_t)

/* The calls whose names have a prefix. PARAMETER makes their last parameter where they have one more: THREADS. */
#define MIRROR(PREFIX, WORD, FIRST, PARAMETER, THREADS)                                                                \
    uint32_t PREFIX##_coset_dft(uint32_t engine, WORD *words, size_t len, size_t width, WORD shift PARAMETER()) {      \
        const uint64_t given[ARGUMENTS] = {FIRST, engine, len, width, 0, shift, 0, THREADS};                           \
        return fill_##WORD(words, len, given);                                                                         \
    }                                                                                                                  \
                                                                                                                       \
    uint32_t PREFIX##_coset_idft(uint32_t engine, WORD *words, size_t len, size_t width, WORD shift PARAMETER()) {     \
        const uint64_t given[ARGUMENTS] = {FIRST + 1, engine, len, width, 0, shift, 0, THREADS};                       \
        return fill_##WORD(words, len, given);                                                                         \
    }                                                                                                                  \
                                                                                                                       \
    EXTENSION(PREFIX##_coset_lde, WORD, FIRST + 2, PARAMETER, THREADS)                                                 \
    EXTENSION(PREFIX##_coset_lde_bit_reversed, WORD, FIRST + 3, PARAMETER, THREADS)                                    \
    EXTENSION(PREFIX##_coset_dft_padded, WORD, FIRST + 4, PARAMETER, THREADS)                                          \
                                                                                                                       \
    uint32_t PREFIX##_is_codeword(uint32_t engine, const WORD *words, size_t len, size_t width, size_t added_bits,     \
                                  WORD shift, uint32_t *answer PARAMETER()) {                                          \
        const uint64_t given[ARGUMENTS] = {FIRST + 5, engine, len, width, added_bits, shift, 0, THREADS};              \
        return test_##WORD(words, len, given, answer);                                                                 \
    }

#define EXTENSION(NAME, WORD, NUMBER, PARAMETER, THREADS)                                                              \
    uint32_t NAME(uint32_t engine, const WORD *words, size_t len, size_t width, size_t added_bits, WORD shift,         \
                  WORD *out, size_t out_len PARAMETER()) {                                                             \
        const uint64_t given[ARGUMENTS] = {NUMBER, engine, len, width, added_bits, shift, out_len, THREADS};           \
        (void)words;                                                                                                   \
        return fill_##WORD(out, out_len, given);                                                                       \
    }

#define NO_MORE()
#define AND_THREADS() , size_t threads
#define BOTH(FIELD, WORD, FIRST)                                                                                       \
    MIRROR(liktrob_##FIELD, WORD, FIRST, NO_MORE, 0)                                                                   \
    MIRROR(liktrob_parallel_##FIELD, WORD, FIRST, AND_THREADS, threads)

#define ON_COLUMNS(NAME, WORD, NUMBER)                                                                                 \
    uint32_t NAME(uint32_t engine, WORD *words, size_t len, size_t width, WORD shift, WORD step) {                     \
        const uint64_t given[ARGUMENTS] = {NUMBER, engine, len, width, step, shift, 0, 0};                             \
        return fill_##WORD(words, len, given);                                                                         \
    }

#define COLUMNS(FIELD, WORD, FIRST)                                                                                    \
    ON_COLUMNS(liktrob_##FIELD##_coset_dft_columns, WORD, FIRST + 6)                                                   \
    ON_COLUMNS(liktrob_##FIELD##_coset_idft_columns, WORD, FIRST + 7)                                                  \
                                                                                                                       \
    uint32_t liktrob_##FIELD##_point(size_t bits, WORD shift, size_t index, WORD *answer) {                            \
        *answer = (WORD)(bits + shift + index);                                                                        \
        return LIKTROB_OK;                                                                                             \
    }

COLUMNS(baby_bear, uint32_t, 10)
COLUMNS(koala_bear, uint32_t, 20)
COLUMNS(goldilocks, uint64_t, 30)
BOTH(baby_bear, uint32_t, 10)
BOTH(koala_bear, uint32_t, 20)
BOTH(goldilocks, uint64_t, 30)
