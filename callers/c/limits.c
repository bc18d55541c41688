/* Numbers at the ends of their types, where a call touches no more than the memory that is there: each answers the
 * status of the first fault, and changes nothing. A length that is not there is given only where an earlier fault is
 * answered before memory is looked at, or as the length of an output that is not written.
 */
#include <stdio.h>
#include <string.h>

#include "liktrob.h"

static const size_t ends[] = {SIZE_MAX,     SIZE_MAX - 1,       SIZE_MAX / 2, SIZE_MAX / 2 + 1, SIZE_MAX / 4 + 1,
                              SIZE_MAX / 8, SIZE_MAX / 16 + 1, 1u << 31,     64,               63};
enum { ENDS = sizeof ends / sizeof *ends };
static const uint32_t engines[] = {6, 7, 255, 256, 65536, UINT32_MAX / 2 + 1, UINT32_MAX};
enum { ENGINES = sizeof engines / sizeof *engines };

static int wrong, tried;

static void expect(const char *what, uint32_t expected, uint32_t status) {
    tried++;
    if (status == expected) return;
    wrong++;
    printf("%s: status %u, not %u\n", what, status, expected);
}

#define TRY(FIELD, WORD, MODULUS)                                                                                      \
    static void try_##FIELD(void) {                                                                                    \
        WORD words[4] = {1, 2, 3, 4}, out[8] = {7, 7, 7, 7, 7, 7, 7, 7};                                               \
        uint32_t yes = 7;                                                                                              \
        for (uint32_t engine = 0; engine <= 5; engine++) {                                                             \
            for (int i = 0; i < ENDS; i++) {                                                                           \
                size_t end = ends[i];                                                                                  \
                expect(#FIELD " width of dft", 3, liktrob_##FIELD##_coset_dft(engine, words, 4, end, 1));              \
                expect(#FIELD " width of idft", 3, liktrob_##FIELD##_coset_idft(engine, words, 4, end, 0));            \
                expect(#FIELD " width of code", 3, liktrob_##FIELD##_is_codeword(engine, words, 4, end, 1, 0, &yes));  \
                expect(#FIELD " bits of code", 3, liktrob_##FIELD##_is_codeword(engine, words, 4, 1, end, 0, &yes));   \
                EXTENSIONS(FIELD, " width", 3, engine, 4, end, 1, 1, 8)                                                \
                EXTENSIONS(FIELD, " width and bits", 3, engine, 4, end, end, 1, 8)                                     \
                EXTENSIONS(FIELD, " bits", 3, engine, 4, 1, end, 1, 8)                                                 \
                EXTENSIONS(FIELD, " bits and no output", 3, engine, 4, 1, end, 1, 0)                                   \
                EXTENSIONS(FIELD, " bits and a long output", 3, engine, 4, 1, end, 1, end)                             \
                EXTENSIONS(FIELD, " long output", 3, engine, 4, 2, 1, 1, end)                                          \
                EXTENSIONS(FIELD, " shift before all", 2, engine, 4, end, end, MODULUS, end)                           \
                EXTENSIONS(FIELD, " no words", 3, engine, 0, end, end, 1, 0)                                           \
                COLUMNS(FIELD, " width", 3, engine, 4, end, 0, 0)                                                      \
                COLUMNS(FIELD, " shift before all", 2, engine, 4, end, MODULUS, 0)                                     \
                COLUMNS(FIELD, " step before all", 2, engine, 4, end, 0, MODULUS)                                      \
                COLUMNS(FIELD, " no words", 3, engine, 0, end, 0, 0)                                                   \
            }                                                                                                          \
            expect(#FIELD " no words", 3, liktrob_##FIELD##_coset_dft(engine, words, 0, 1, 1));                        \
            expect(#FIELD " no words", 3, liktrob_##FIELD##_coset_idft(engine, words, 0, 0, 0));                       \
            expect(#FIELD " no words", 3, liktrob_##FIELD##_is_codeword(engine, words, 0, 1, 0, 1, &yes));             \
            expect(#FIELD " no words", 2, liktrob_##FIELD##_coset_dft(engine, words, 0, 1, MODULUS));                  \
            expect(#FIELD " greatest shift", 2, liktrob_##FIELD##_coset_dft(engine, words, 4, 3, (WORD)-1));           \
            expect(#FIELD " three rows", 3, liktrob_##FIELD##_coset_dft(engine, words, 3, 1, 1));                      \
            words[0] = MODULUS - 1;                                                                                    \
            expect(#FIELD " greatest number", 0, liktrob_##FIELD##_coset_dft(engine, words, 1, 1, MODULUS - 1));       \
            expect(#FIELD " greatest shift", 2, liktrob_##FIELD##_coset_idft(engine, words, 1, 1, MODULUS));           \
            words[0] = MODULUS;                                                                                        \
            expect(#FIELD " number", 2, liktrob_##FIELD##_coset_idft(engine, words, 1, 1, MODULUS - 1));               \
            words[0] = 1;                                                                                              \
            EXTENSIONS(FIELD, " three rows", 3, engine, 3, 1, 1, 1, 6)                                                 \
            EXTENSIONS(FIELD, " short output", 3, engine, 4, 2, 1, 1, 7)                                               \
            COLUMNS(FIELD, " three rows", 3, engine, 3, 1, 0, 0)                                                       \
            COLUMNS(FIELD, " greatest shift", 2, engine, 4, 1, (WORD)-1, 0)                                            \
            COLUMNS(FIELD, " greatest step", 2, engine, 4, 1, 0, (WORD)-1)                                             \
            COLUMNS(FIELD, " shift and step below the modulus", 0, engine, 1, 1, MODULUS - 1, MODULUS - 1)             \
            BACK(FIELD, " shift of 0", 4, engine, 4, 1, 0, 1)                                                          \
            BACK(FIELD, " step of 0", 4, engine, 4, 2, 1, 0)                                                           \
        }                                                                                                              \
        for (int i = 0; i < ENGINES; i++) {                                                                            \
            uint32_t no = engines[i];                                                                                  \
            expect(#FIELD " engine", 1, liktrob_##FIELD##_coset_dft(no, words, SIZE_MAX, 0, MODULUS));                 \
            expect(#FIELD " engine", 1, liktrob_##FIELD##_coset_idft(no, words, SIZE_MAX, 0, MODULUS));                \
            expect(#FIELD " engine", 1, liktrob_##FIELD##_is_codeword(no, words, SIZE_MAX, 0, 1, MODULUS, &yes));      \
            EXTENSIONS(FIELD, " engine", 1, no, SIZE_MAX, 0, SIZE_MAX, MODULUS, SIZE_MAX)                              \
            COLUMNS(FIELD, " engine", 1, no, SIZE_MAX, 0, MODULUS, MODULUS)                                            \
        }                                                                                                              \
        for (int i = 0; i < 8; i++)                                                                                    \
            if (out[i] != 7 || words[i / 2] != (WORD)(i / 2 + 1) || yes != 7)                                          \
                wrong++, puts(#FIELD ": a status with a changed buffer");                                              \
    }                                                                                                                  \
                                                                                                                       \
    static void try_points_of_##FIELD(void) {                                                                          \
        WORD point = 7;                                                                                                \
        for (int i = 0; i < ENDS; i++) {                                                                               \
            expect(#FIELD " bits", 3, liktrob_##FIELD##_point(ends[i], 1, ends[i], &point));                           \
            expect(#FIELD " shift before bits", 2, liktrob_##FIELD##_point(ends[i], MODULUS, ends[i], &point));        \
            expect(#FIELD " greatest shift", 2, liktrob_##FIELD##_point(0, (WORD)-1, ends[i], &point));                \
        }                                                                                                              \
        if (point != 7) wrong++, puts(#FIELD ": a status with a changed point");                                       \
        for (int i = 0; i < ENDS; i++) {                                                                               \
            /* -1 generates the subgroup of order 2, and an even number of steps leads back. */                        \
            int is_odd = ends[i] % 2 == 1;                                                                             \
            expect(#FIELD " index", 0, liktrob_##FIELD##_point(0, MODULUS - 1, ends[i], &point));                      \
            if (point != MODULUS - 1) wrong++, puts(#FIELD ": another point of one");                                  \
            expect(#FIELD " index", 0, liktrob_##FIELD##_point(1, 5, ends[i], &point));                                \
            if (point != (is_odd ? MODULUS - 5 : 5)) wrong++, puts(#FIELD ": another point of two");                   \
        }                                                                                                              \
        /* Half of the subgroup's order, and 2^63, which is a multiple of it. */                                       \
        expect(#FIELD " index", 0, liktrob_##FIELD##_point(24, 5, 1u << 23, &point));                                  \
        if (point != MODULUS - 5) wrong++, puts(#FIELD ": another point of many");                                     \
        expect(#FIELD " index", 0, liktrob_##FIELD##_point(24, 5, SIZE_MAX / 2 + 1, &point));                          \
        if (point != 5) wrong++, puts(#FIELD ": another point of many");                                               \
    }

#define EXTENSIONS(FIELD, WHAT, STATUS, ENGINE, LEN, WIDTH, BITS, SHIFT, OUT_LEN)                                      \
    expect(#FIELD WHAT " of lde", STATUS,                                                                              \
           liktrob_##FIELD##_coset_lde(ENGINE, words, LEN, WIDTH, BITS, SHIFT, out, OUT_LEN));                         \
    expect(#FIELD WHAT " of lde in reverse", STATUS,                                                                   \
           liktrob_##FIELD##_coset_lde_bit_reversed(ENGINE, words, LEN, WIDTH, BITS, SHIFT, out, OUT_LEN));            \
    expect(#FIELD WHAT " of padded dft", STATUS,                                                                       \
           liktrob_##FIELD##_coset_dft_padded(ENGINE, words, LEN, WIDTH, BITS, SHIFT, out, OUT_LEN));

#define COLUMNS(FIELD, WHAT, STATUS, ENGINE, LEN, WIDTH, SHIFT, STEP)                                                  \
    expect(#FIELD WHAT " of columns", STATUS,                                                                          \
           liktrob_##FIELD##_coset_dft_columns(ENGINE, words, LEN, WIDTH, SHIFT, STEP));                               \
    BACK(FIELD, WHAT, STATUS, ENGINE, LEN, WIDTH, SHIFT, STEP)

#define BACK(FIELD, WHAT, STATUS, ENGINE, LEN, WIDTH, SHIFT, STEP)                                                     \
    expect(#FIELD WHAT " of columns back", STATUS,                                                                     \
           liktrob_##FIELD##_coset_idft_columns(ENGINE, words, LEN, WIDTH, SHIFT, STEP));

TRY(baby_bear, uint32_t, LIKTROB_BABY_BEAR_MODULUS)
TRY(koala_bear, uint32_t, LIKTROB_KOALA_BEAR_MODULUS)
TRY(goldilocks, uint64_t, LIKTROB_GOLDILOCKS_MODULUS)

int main(void) {
    try_baby_bear();
    try_points_of_baby_bear();
    try_koala_bear();
    try_points_of_koala_bear();
    try_goldilocks();
    try_points_of_goldilocks();
    printf("%d calls, %d wrong\n", tried, wrong);
    return wrong != 0 || tried == 0;
}
