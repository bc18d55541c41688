/* Answers the cases that tools/check_callers makes, on the ranks of MPI:  mpirun -n 4 cases FILE
 *
 * A line of the file has FIELD ENGINE CALL THREADS WIDTH ADDED SHIFT OUT_LEN COUNT and then COUNT numbers; its answer
 * is a status and, where that is 0, numbers. The threads are not MPI's. Where the matrix has parts for so many ranks,
 * the call by parts must answer the same.
 */
#include <inttypes.h>
#include <stdio.h>
#include <stdlib.h>
#include <string.h>

#include "liktrob_mpi.h"

struct call {
    uint32_t engine;
    char field[32], name[32];
    size_t width, added_bits, out_len, count;
    uint64_t shift;
};

static int rank, ranks, by_parts;
static FILE *file;

static int is(const struct call *call, const char *name) { return strcmp(call->name, name) == 0; }

static void fail(const char *what) {
    puts(what);
    fflush(stdout);
    MPI_Abort(MPI_COMM_WORLD, 71);
}

static void *words_of(size_t n, size_t size) {
    void *block = calloc(n > 0 ? n : 1, size);
    if (block == NULL) fail("no memory");
    return block;
}

static size_t log_of(size_t n) {
    size_t bits = 0;
    while (n >> bits > 1) bits++;
    return bits;
}

/* Whether a matrix has parts for so many ranks, where its shape is one that the library transforms. */
static int has_parts(const struct call *c) {
    if (c->width == 0 || c->count % c->width != 0 || c->added_bits > 8) return 0;
    size_t height = c->count / c->width;
    int is_extension = !is(c, "coset_dft") && !is(c, "coset_idft");
    if (is_extension && c->out_len != c->count << c->added_bits) return 0;
    return height > 0 && (height & (height - 1)) == 0 && (size_t)ranks <= (size_t)1 << log_of(height) / 2;
}

#define ANSWER(FIELD, WORD, OF_MPI)                                                                                    \
    /* Between a whole matrix and the part of this rank: its share of the columns of a matrix of so many rows. */      \
    static void cut_##FIELD(WORD *whole, WORD *part, size_t len, size_t rows, int is_back) {                           \
        size_t row = len / rows, share = row / (size_t)ranks;                                                          \
        for (size_t i = 0; i < rows; i++) {                                                                            \
            WORD *here = whole + i * row + (size_t)rank * share;                                                       \
            if (is_back) memcpy(here, part + i * share, share * sizeof *part);                                         \
            else memcpy(part + i * share, here, share * sizeof *part);                                                 \
        }                                                                                                              \
    }                                                                                                                  \
                                                                                                                       \
    /* The call by parts, where there is one: the status, and the matrix on rank 0. */                                 \
    static int is_by_parts_##FIELD(const struct call *c, WORD *words, WORD *out, uint32_t *status) {                   \
        size_t w = c->width, bits = c->added_bits, k = has_parts(c) ? log_of(c->count / w) : 0;                        \
        size_t m = (size_t)1 << k / 2, r = (size_t)1 << (k - k / 2), len = c->count;                                   \
        if (!has_parts(c) || is(c, "coset_lde_bit_reversed") || is(c, "is_codeword")) return 0;                        \
        size_t out_len = len << bits, from = is(c, "coset_dft") || is(c, "coset_dft_padded") ? r : m;                  \
        WORD *part = words_of(len, sizeof *part), *answer = words_of(out_len, sizeof *answer);                         \
        WORD *mine = words_of(out_len, sizeof *mine), shift = (WORD)c->shift;                                          \
        MPI_Bcast(words, (int)len, OF_MPI, 0, MPI_COMM_WORLD);                                                         \
        cut_##FIELD(words, part, len, from, 0);                                                                        \
        if (is(c, "coset_dft"))                                                                                        \
            *status = liktrob_mpi_##FIELD##_coset_dft_by_parts(c->engine, part, k, w, shift, MPI_COMM_WORLD);          \
        else if (is(c, "coset_lde") || is(c, "coset_idft"))                                                            \
            *status = liktrob_mpi_##FIELD##_coset_idft_by_parts(c->engine, part, k, w,                                 \
                                                                is(c, "coset_lde") ? 1 : shift, MPI_COMM_WORLD);       \
        else *status = LIKTROB_OK;                                                                                     \
        if (!is(c, "coset_dft") && !is(c, "coset_idft")) {                                                             \
            if (*status == LIKTROB_OK)                                                                                 \
                *status = liktrob_mpi_##FIELD##_coset_dft_padded_by_parts(c->engine, part, k, w, bits, shift, answer,  \
                                                                          MPI_COMM_WORLD);                             \
        } else memcpy(answer, part, len / (size_t)ranks * sizeof *part);                                               \
        cut_##FIELD(mine, answer, out_len, is(c, "coset_idft") ? r : m, 1);                                            \
        MPI_Reduce(mine, out, (int)out_len, OF_MPI, MPI_BOR, 0, MPI_COMM_WORLD);                                       \
        free(part), free(answer), free(mine);                                                                          \
        return 1;                                                                                                      \
    }                                                                                                                  \
                                                                                                                       \
    static uint32_t call_##FIELD(const struct call *c, WORD *words, WORD *out, uint32_t *answer) {                     \
        WORD shift = (WORD)c->shift;                                                                                   \
        size_t n = c->count, w = c->width, bits = c->added_bits, m = c->out_len;                                       \
        MPI_Comm comm = MPI_COMM_WORLD;                                                                                \
        if (is(c, "coset_dft")) return liktrob_mpi_##FIELD##_coset_dft(c->engine, words, n, w, shift, comm);           \
        if (is(c, "coset_idft")) return liktrob_mpi_##FIELD##_coset_idft(c->engine, words, n, w, shift, comm);         \
        if (is(c, "coset_lde"))                                                                                        \
            return liktrob_mpi_##FIELD##_coset_lde(c->engine, words, n, w, bits, shift, out, m, comm);                 \
        if (is(c, "coset_lde_bit_reversed"))                                                                           \
            return liktrob_mpi_##FIELD##_coset_lde_bit_reversed(c->engine, words, n, w, bits, shift, out, m, comm);    \
        if (is(c, "coset_dft_padded"))                                                                                 \
            return liktrob_mpi_##FIELD##_coset_dft_padded(c->engine, words, n, w, bits, shift, out, m, comm);          \
        return liktrob_mpi_##FIELD##_is_codeword(c->engine, words, n, w, bits, shift, answer, comm);                   \
    }                                                                                                                  \
                                                                                                                       \
    static void answer_##FIELD(const struct call *c) {                                                                 \
        size_t n = c->count, m = c->out_len, most = (n > m ? n : m);                                                   \
        WORD *words = words_of(n, sizeof *words), *before = words_of(n, sizeof *before);                               \
        WORD *out = words_of(m, sizeof *out), *other = words_of(most, sizeof *other);                                  \
        int is_in_place = is(c, "coset_dft") || is(c, "coset_idft");                                                   \
        uint32_t answer = 7, of_parts = 0;                                                                             \
        for (size_t i = 0; rank == 0 && i < n; i++) {                                                                  \
            uint64_t number;                                                                                           \
            if (fscanf(file, "%" SCNu64, &number) != 1 || (WORD)number != number) fail("no number");                   \
            words[i] = before[i] = (WORD)number;                                                                       \
        }                                                                                                              \
        for (size_t i = 0; i < m; i++) out[i] = 1;                                                                     \
        uint32_t status = call_##FIELD(c, rank == 0 ? words : NULL, rank == 0 ? out : NULL, &answer);                  \
        int is_kept = memcmp(before, words, n * sizeof *words) == 0;                                                   \
        if (rank == 0 && (status != LIKTROB_OK || !is_in_place) && !is_kept) fail("a changed buffer");                 \
        for (size_t i = 0; rank == 0 && status != LIKTROB_OK && i < m; i++)                                            \
            if (out[i] != 1) fail("a changed output");                                                                 \
        if (is_by_parts_##FIELD(c, before, other, &of_parts)) {                                                        \
            by_parts++;                                                                                                \
            if (of_parts != status) fail("another status by parts");                                                   \
            size_t bytes = (is_in_place ? n : m) * sizeof *words;                                                      \
            if (rank == 0 && status == LIKTROB_OK && memcmp(other, is_in_place ? words : out, bytes) != 0)             \
                fail("another answer by parts");                                                                       \
        }                                                                                                              \
        if (rank == 0) {                                                                                               \
            printf("%" PRIu32, status);                                                                                \
            if (status == LIKTROB_OK && is(c, "is_codeword")) printf(" %" PRIu32, answer);                             \
            else if (status == LIKTROB_OK)                                                                             \
                for (size_t i = 0; i < (is_in_place ? n : m); i++)                                                     \
                    printf(" %" PRIu64, (uint64_t)(is_in_place ? words : out)[i]);                                     \
            puts("");                                                                                                  \
        }                                                                                                              \
        free(words), free(before), free(out), free(other);                                                             \
    }

ANSWER(baby_bear, uint32_t, MPI_UINT32_T)
ANSWER(koala_bear, uint32_t, MPI_UINT32_T)
ANSWER(goldilocks, uint64_t, MPI_UINT64_T)

int main(int argc, char **argv) {
    MPI_Init(&argc, &argv);
    MPI_Comm_rank(MPI_COMM_WORLD, &rank);
    MPI_Comm_size(MPI_COMM_WORLD, &ranks);
    file = argc == 2 ? fopen(argv[1], "r") : NULL;
    if (file == NULL) fail("no file of cases");
    for (;;) {
        struct call c;
        int found = 8;
        memset(&c, 0, sizeof c);
        if (rank == 0)
            found = fscanf(file, "%31s %" SCNu32 " %31s %*u %zu %zu %" SCNu64 " %zu %zu", c.field, &c.engine, c.name,
                           &c.width, &c.added_bits, &c.shift, &c.out_len, &c.count);
        MPI_Bcast(&found, 1, MPI_INT, 0, MPI_COMM_WORLD);
        if (found != 8) break;
        MPI_Bcast(&c, sizeof c, MPI_BYTE, 0, MPI_COMM_WORLD);
        if (strcmp(c.field, "baby_bear") == 0) answer_baby_bear(&c);
        else if (strcmp(c.field, "koala_bear") == 0) answer_koala_bear(&c);
        else answer_goldilocks(&c);
    }
    if (by_parts == 0) fail("no case by parts");
    MPI_Finalize();
    return 0;
}
