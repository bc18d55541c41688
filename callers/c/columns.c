/* Answers the cases of columns on cosets of their own, and of points, that tools/check_callers makes. A line has FIELD
 * ENGINE CALL BITS WIDTH SHIFT STEP INDEX COUNT and then COUNT numbers; its answer is a status and, where that is 0,
 * numbers. A point takes BITS, SHIFT and INDEX, the transforms take the others.
 */
#include <inttypes.h>
#include <stdio.h>
#include <stdlib.h>
#include <string.h>

#include "liktrob.h"

struct call {
    uint32_t engine;
    char name[32];
    size_t bits, width, index, count;
    uint64_t shift, step;
};

/* A block of its own size, so that AddressSanitizer sees a read or a write beyond it. */
static void *words_of(size_t n, size_t size) {
    void *block = malloc(n > 0 ? n * size : 1);
    if (block == NULL) exit(70);
    return block;
}

static void changed(void) {
    puts("a status with a changed number");
    exit(1);
}

#define ANSWER(FIELD, WORD)                                                                                            \
    static void answer_point_##FIELD(const struct call *c) {                                                           \
        WORD point = 7;                                                                                                \
        uint32_t status = liktrob_##FIELD##_point(c->bits, (WORD)c->shift, c->index, &point);                          \
        if (status != LIKTROB_OK && point != 7) changed();                                                             \
        printf("%" PRIu32, status);                                                                                    \
        if (status == LIKTROB_OK) printf(" %" PRIu64, (uint64_t)point);                                                \
        puts("");                                                                                                      \
    }                                                                                                                  \
                                                                                                                       \
    static void answer_columns_##FIELD(const struct call *c) {                                                         \
        WORD *words = words_of(c->count, sizeof *words), *before = words_of(c->count, sizeof *before);                 \
        WORD shift = (WORD)c->shift, step = (WORD)c->step;                                                             \
        for (size_t i = 0; i < c->count; i++) {                                                                        \
            uint64_t number;                                                                                           \
            if (scanf("%" SCNu64, &number) != 1 || (WORD)number != number) exit(71);                                   \
            before[i] = words[i] = (WORD)number;                                                                       \
        }                                                                                                              \
        uint32_t status = strcmp(c->name, "coset_dft_columns") == 0                                                    \
            ? liktrob_##FIELD##_coset_dft_columns(c->engine, words, c->count, c->width, shift, step)                   \
            : liktrob_##FIELD##_coset_idft_columns(c->engine, words, c->count, c->width, shift, step);                 \
        if (status != LIKTROB_OK && memcmp(before, words, c->count * sizeof *words) != 0) changed();                   \
        printf("%" PRIu32, status);                                                                                    \
        for (size_t i = 0; status == LIKTROB_OK && i < c->count; i++) printf(" %" PRIu64, (uint64_t)words[i]);         \
        puts("");                                                                                                      \
        free(words);                                                                                                   \
        free(before);                                                                                                  \
    }                                                                                                                  \
                                                                                                                       \
    static void answer_##FIELD(const struct call *c) {                                                                 \
        if ((WORD)c->shift != c->shift || (WORD)c->step != c->step) exit(71);                                          \
        if (strcmp(c->name, "point") == 0) answer_point_##FIELD(c);                                                    \
        else answer_columns_##FIELD(c);                                                                                \
    }

ANSWER(baby_bear, uint32_t)
ANSWER(koala_bear, uint32_t)
ANSWER(goldilocks, uint64_t)

int main(void) {
    char field[32];
    struct call c;
    while (scanf("%31s %" SCNu32 " %31s %zu %zu %" SCNu64 " %" SCNu64 " %zu %zu", field, &c.engine, c.name, &c.bits,
                 &c.width, &c.shift, &c.step, &c.index, &c.count) == 9) {
        if (strcmp(field, "baby_bear") == 0) answer_baby_bear(&c);
        else if (strcmp(field, "koala_bear") == 0) answer_koala_bear(&c);
        else if (strcmp(field, "goldilocks") == 0) answer_goldilocks(&c);
        else return 71;
    }
    return 0;
}
