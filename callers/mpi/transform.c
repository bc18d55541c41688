/* SPDX-License-Identifier: MIT OR Apache-2.0
 *
 * Transforms a matrix that lies in a file, on the ranks of MPI:
 *
 *     mpirun -n RANKS transform FIELD CALL LOG_HEIGHT WIDTH ADDED_BITS SHIFT IN OUT
 *
 * FIELD is baby_bear, koala_bear or goldilocks, and CALL is coset_dft, coset_idft, coset_lde or coset_dft_padded. IN
 * has 2^LOG_HEIGHT rows of WIDTH numbers, each a word of the field as the machine has it, and OUT becomes the answer.
 * Each rank reads and writes its share alone: of the columns, where there are at least as many as ranks, and else a
 * part of the matrix (liktrob_mpi.h). For that the number of ranks must be a power of two whose square is at most the
 * height.
 *
 * The exit status is the same on every rank: that of the call, 64 for wrong arguments, or 74 for a fault of a file.
 * Where it is not 0, OUT is not touched, except where writing it failed.
 */
#include <inttypes.h>
#include <stdio.h>
#include <stdlib.h>
#include <string.h>

#include "liktrob_mpi.h"

struct call {
    const char *name, *in, *out;
    size_t log_height, width, added_bits;
    uint64_t shift;
    int rank, ranks;
};

enum { USAGE = 64, FILES = 74 };

static int is(const struct call *call, const char *name) { return strcmp(call->name, name) == 0; }

/* The first fault of any rank. */
static uint32_t agreed(uint32_t status) {
    uint32_t mine = status == LIKTROB_OK ? UINT32_MAX : status, first;
    MPI_Allreduce(&mine, &first, 1, MPI_UINT32_T, MPI_MIN, MPI_COMM_WORLD);
    return first == UINT32_MAX ? LIKTROB_OK : first;
}

/* Reads or writes columns of a matrix in a file: of so many rows some columns, from first on. */
static int is_moved(const char *name, int is_write, void *words, size_t rows, size_t row, size_t first, size_t count,
                    MPI_Datatype word) {
    int size, mode = is_write ? MPI_MODE_CREATE | MPI_MODE_WRONLY : MPI_MODE_RDONLY;
    MPI_File file;
    MPI_Offset length = 0;
    MPI_Datatype columns, share;
    MPI_Type_size(word, &size);
    const MPI_Offset wanted = (MPI_Offset)(rows * row * (size_t)size);
    if (MPI_File_open(MPI_COMM_WORLD, name, mode, MPI_INFO_NULL, &file) != MPI_SUCCESS) return 0;
    if (is_write) MPI_File_set_size(file, wanted);
    MPI_File_get_size(file, &length);
    int is_done = length == wanted;
    if (is_done) {
        MPI_Type_vector((int)rows, (int)count, (int)row, word, &columns);
        MPI_Type_contiguous((int)count, word, &share);
        MPI_Type_commit(&columns);
        MPI_Type_commit(&share);
        MPI_File_set_view(file, (MPI_Offset)(first * (size_t)size), word, columns, "native", MPI_INFO_NULL);
        int moved = is_write ? MPI_File_write_all(file, words, (int)rows, share, MPI_STATUS_IGNORE)
                             : MPI_File_read_all(file, words, (int)rows, share, MPI_STATUS_IGNORE);
        is_done = moved == MPI_SUCCESS;
        MPI_Type_free(&columns);
        MPI_Type_free(&share);
    }
    return MPI_File_close(&file) == MPI_SUCCESS && is_done;
}

#define FIELD(FIELD, WORD, OF_MPI)                                                                                     \
    static uint32_t by_columns_##FIELD(const struct call *c, WORD *words, size_t len, size_t width, WORD *out,         \
                                       size_t out_len) {                                                               \
        WORD shift = (WORD)c->shift;                                                                                   \
        size_t bits = c->added_bits;                                                                                   \
        if (is(c, "coset_lde")) return liktrob_##FIELD##_coset_lde(0, words, len, width, bits, shift, out, out_len);   \
        if (is(c, "coset_dft_padded"))                                                                                 \
            return liktrob_##FIELD##_coset_dft_padded(0, words, len, width, bits, shift, out, out_len);                \
        memcpy(out, words, len * sizeof *out);                                                                         \
        if (is(c, "coset_dft")) return liktrob_##FIELD##_coset_dft(0, out, len, width, shift);                         \
        return liktrob_##FIELD##_coset_idft(0, out, len, width, shift);                                                \
    }                                                                                                                  \
                                                                                                                       \
    static uint32_t by_parts_##FIELD(const struct call *c, WORD *words, WORD *out) {                                   \
        WORD shift = (WORD)c->shift;                                                                                   \
        uint32_t status = LIKTROB_OK;                                                                                  \
        MPI_Comm comm = MPI_COMM_WORLD;                                                                                \
        if (is(c, "coset_idft") || is(c, "coset_lde"))                                                                 \
            status = liktrob_mpi_##FIELD##_coset_idft_by_parts(0, words, c->log_height, c->width,                      \
                                                               is(c, "coset_lde") ? 1 : shift, comm);                  \
        if (status != LIKTROB_OK || is(c, "coset_idft")) return status;                                                \
        return liktrob_mpi_##FIELD##_coset_dft_padded_by_parts(0, words, c->log_height, c->width, c->added_bits,       \
                                                               shift, out, comm);                                      \
    }                                                                                                                  \
                                                                                                                       \
    static uint32_t answer_##FIELD(const struct call *c) {                                                             \
        size_t height = (size_t)1 << c->log_height, ranks = (size_t)c->ranks, rank = (size_t)c->rank;                  \
        int is_by_columns = c->width >= ranks, is_of_values = is(c, "coset_idft") || is(c, "coset_lde");               \
        /* By parts the columns are those of wide rows. */                                                             \
        size_t r = (size_t)1 << (c->log_height - c->log_height / 2), m = height / r;                                   \
        size_t rows = is_by_columns ? height : is_of_values ? m : r, row = height / rows * c->width;                   \
        size_t out_rows = is_by_columns ? height << c->added_bits : is(c, "coset_idft") ? r : m;                       \
        size_t out_row = (height << c->added_bits) / out_rows * c->width;                                              \
        size_t first = rank * row / ranks, count = (rank + 1) * row / ranks - first;                                   \
        size_t out_first = rank * out_row / ranks, out_count = (rank + 1) * out_row / ranks - out_first;               \
        size_t len = rows * count, out_len = out_rows * out_count;                                                     \
        WORD *words = malloc(len * sizeof *words + 1), *out = malloc(out_len * sizeof *out + 1);                       \
        uint32_t status = agreed(words == NULL || out == NULL ? LIKTROB_MEMORY : LIKTROB_OK);                          \
        if (status == LIKTROB_OK)                                                                                      \
            status = agreed(is_moved(c->in, 0, words, rows, row, first, count, OF_MPI) ? LIKTROB_OK : FILES);          \
        if (status == LIKTROB_OK)                                                                                      \
            status = is_by_columns ? agreed(by_columns_##FIELD(c, words, len, count, out, out_len))                    \
                                   : by_parts_##FIELD(c, words, out);                                                  \
        WORD *answer = !is_by_columns && is(c, "coset_idft") ? words : out;                                            \
        if (status == LIKTROB_OK)                                                                                      \
            status = agreed(is_moved(c->out, 1, answer, out_rows, out_row, out_first, out_count, OF_MPI) ? LIKTROB_OK  \
                                                                                                         : FILES);     \
        free(words);                                                                                                   \
        free(out);                                                                                                     \
        return status;                                                                                                 \
    }

FIELD(baby_bear, uint32_t, MPI_UINT32_T)
FIELD(koala_bear, uint32_t, MPI_UINT32_T)
FIELD(goldilocks, uint64_t, MPI_UINT64_T)

/* A number of at most so much, or more than that. */
static uint64_t number_of(const char *word, uint64_t most) {
    char *end;
    uint64_t number = strtoull(word, &end, 10);
    return *word >= '0' && *word <= '9' && *end == '\0' && number <= most ? number : most + 1;
}

static uint32_t answer(const char *field, const struct call *c) {
    if (strcmp(field, "goldilocks") == 0) return answer_goldilocks(c);
    if (c->shift > UINT32_MAX) return LIKTROB_NUMBER;
    if (strcmp(field, "baby_bear") == 0) return answer_baby_bear(c);
    return strcmp(field, "koala_bear") == 0 ? answer_koala_bear(c) : USAGE;
}

static const char *text_of(uint32_t status) {
    static const char *const texts[] = {"done", "no such engine", "a number is not below the modulus",
                                        "the shape does not fit", "the shift has no inverse", "out of memory"};
    if (status == USAGE) return "transform FIELD CALL LOG_HEIGHT WIDTH ADDED_BITS SHIFT IN OUT";
    return status == FILES ? "IN is not a file of this matrix, or OUT cannot be written" : texts[status];
}

int main(int argc, char **argv) {
    uint32_t status = USAGE;
    struct call c = {0};
    MPI_Init(&argc, &argv);
    MPI_Comm_rank(MPI_COMM_WORLD, &c.rank);
    MPI_Comm_size(MPI_COMM_WORLD, &c.ranks);
    if (argc == 9) {
        c.name = argv[2], c.in = argv[7], c.out = argv[8];
        c.log_height = number_of(argv[3], 30), c.width = number_of(argv[4], INT32_MAX >> 1);
        c.added_bits = number_of(argv[5], 30), c.shift = number_of(argv[6], UINT64_MAX - 1);
        int is_extension = is(&c, "coset_lde") || is(&c, "coset_dft_padded");
        if (!is_extension && !is(&c, "coset_dft") && !is(&c, "coset_idft")) status = USAGE;
        else if (c.log_height + c.added_bits > 30 || c.width == 0 || c.width > INT32_MAX >> 1) status = LIKTROB_SHAPE;
        else if (!is_extension && c.added_bits > 0) status = LIKTROB_SHAPE;
        else status = answer(argv[1], &c);
    }
    if (c.rank == 0 && status != LIKTROB_OK) fprintf(stderr, "transform: %s\n", text_of(status));
    MPI_Finalize();
    return (int)status;
}
