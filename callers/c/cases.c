/* Answers the cases that tools/check_callers makes. A line has FIELD ENGINE CALL THREADS WIDTH ADDED SHIFT OUT_LEN
 * COUNT and then COUNT numbers; its answer is a status and, where that is 0, numbers. With -DPARALLEL the calls are
 * those of liktrob_parallel.h, on so many threads.
 *
 * Each matrix lies in a block of its own size, so that AddressSanitizer and valgrind see a read or a write beyond it.
 */
#include <inttypes.h>
#include <stdio.h>
#include <stdlib.h>
#include <string.h>

#ifdef PARALLEL
#include "liktrob_parallel.h"
#define CALL(FIELD, NAME, ...) liktrob_parallel_##FIELD##_##NAME(__VA_ARGS__, c->threads)
#else
#include "liktrob.h"
#define CALL(FIELD, NAME, ...) liktrob_##FIELD##_##NAME(__VA_ARGS__)
#endif

struct call {
    uint32_t engine;
    char name[32];
    size_t threads, width, added_bits, out_len, count;
    uint64_t shift;
};

static int is(const struct call *call, const char *name) { return strcmp(call->name, name) == 0; }

/* A block of n words; one of no words is a block, too. */
static void *words_of(size_t n, size_t size) {
    void *block = malloc(n > 0 ? n * size : 1);
    if (block == NULL) exit(70);
    return block;
}

static void changed(void) {
    puts("a status with a changed buffer");
    exit(1);
}

#define ANSWER(FIELD, WORD)                                                                                            \
    static void print_##FIELD(const WORD *numbers, size_t n) {                                                         \
        for (size_t i = 0; i < n; i++) printf(" %" PRIu64, (uint64_t)numbers[i]);                                      \
    }                                                                                                                  \
                                                                                                                       \
    static WORD *read_##FIELD(size_t count) {                                                                          \
        WORD *words = words_of(count, sizeof *words);                                                                  \
        for (size_t i = 0; i < count; i++) {                                                                           \
            uint64_t number;                                                                                           \
            if (scanf("%" SCNu64, &number) != 1 || (WORD)number != number) exit(71);                                   \
            words[i] = (WORD)number;                                                                                   \
        }                                                                                                              \
        return words;                                                                                                  \
    }                                                                                                                  \
                                                                                                                       \
    static uint32_t call_##FIELD(const struct call *c, WORD *words, WORD *out, uint32_t *answer) {                     \
        WORD shift = (WORD)c->shift;                                                                                   \
        size_t n = c->count, w = c->width, bits = c->added_bits, m = c->out_len;                                       \
        if (shift != c->shift) exit(71);                                                                               \
        if (is(c, "coset_dft")) return CALL(FIELD, coset_dft, c->engine, words, n, w, shift);                          \
        if (is(c, "coset_idft")) return CALL(FIELD, coset_idft, c->engine, words, n, w, shift);                        \
        if (is(c, "coset_lde")) return CALL(FIELD, coset_lde, c->engine, words, n, w, bits, shift, out, m);            \
        if (is(c, "coset_lde_bit_reversed"))                                                                           \
            return CALL(FIELD, coset_lde_bit_reversed, c->engine, words, n, w, bits, shift, out, m);                   \
        if (is(c, "coset_dft_padded"))                                                                                 \
            return CALL(FIELD, coset_dft_padded, c->engine, words, n, w, bits, shift, out, m);                         \
        if (is(c, "is_codeword")) return CALL(FIELD, is_codeword, c->engine, words, n, w, bits, shift, answer);        \
        exit(71);                                                                                                      \
    }                                                                                                                  \
                                                                                                                       \
    static void answer_##FIELD(const struct call *c) {                                                                 \
        WORD *words = read_##FIELD(c->count), *before = words_of(c->count, sizeof *before);                            \
        WORD *out = words_of(c->out_len, sizeof *out);                                                                 \
        uint32_t answer = 7;                                                                                           \
        memcpy(before, words, c->count * sizeof *words);                                                               \
        for (size_t i = 0; i < c->out_len; i++) out[i] = 1;                                                            \
        uint32_t status = call_##FIELD(c, words, out, &answer);                                                        \
        int is_in_place = is(c, "coset_dft") || is(c, "coset_idft");                                                   \
        if ((status != LIKTROB_OK || !is_in_place) && memcmp(before, words, c->count * sizeof *words) != 0) changed(); \
        if (status != LIKTROB_OK && answer != 7) changed();                                                            \
        for (size_t i = 0; status != LIKTROB_OK && i < c->out_len; i++)                                                \
            if (out[i] != 1) changed();                                                                                \
        printf("%" PRIu32, status);                                                                                    \
        if (status == LIKTROB_OK && is(c, "is_codeword")) printf(" %" PRIu32, answer);                                 \
        else if (status == LIKTROB_OK) print_##FIELD(is_in_place ? words : out, is_in_place ? c->count : c->out_len);  \
        puts("");                                                                                                      \
        free(words);                                                                                                   \
        free(before);                                                                                                  \
        free(out);                                                                                                     \
    }

ANSWER(baby_bear, uint32_t)
ANSWER(koala_bear, uint32_t)
ANSWER(goldilocks, uint64_t)

int main(void) {
    char field[32];
    struct call c;
    while (scanf("%31s %" SCNu32 " %31s %zu %zu %zu %" SCNu64 " %zu %zu", field, &c.engine, c.name, &c.threads,
                 &c.width, &c.added_bits, &c.shift, &c.out_len, &c.count) == 9) {
        if (strcmp(field, "baby_bear") == 0) answer_baby_bear(&c);
        else if (strcmp(field, "koala_bear") == 0) answer_koala_bear(&c);
        else if (strcmp(field, "goldilocks") == 0) answer_goldilocks(&c);
        else return 71;
    }
    return 0;
}
