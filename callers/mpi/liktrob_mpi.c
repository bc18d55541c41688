/* SPDX-License-Identifier: MIT OR Apache-2.0
 *
 * liktrob_mpi.c: the calls of liktrob_mpi.h. C11 and MPI 3.
 *
 * By parts: the 2^k = R * m rows of w numbers are also R wide rows of m * w. Let g generate the subgroup of order 2^k.
 * A transform on the coset of shift is coset_dft of the wide rows, as R rows of m * w columns, with the shift shift^m;
 * and then coset_dft of wide row i alone, as m rows of w columns, with the shift shift * g^i: its row j is row
 * i + R * j of the answer. Between the two each rank gives up columns for wide rows. Where w = 1, it turns these to
 * columns beside each other, which one coset_dft_columns with the step g makes a part of the answer.
 */
#include "liktrob_mpi.h"

#include <limits.h>
#include <stdlib.h>
#include <string.h>

__extension__ typedef unsigned __int128 product;

/* What all ranks say: the first fault of any. */
static uint32_t agreed(uint32_t status, MPI_Comm comm) {
    uint32_t mine = status == LIKTROB_OK ? UINT32_MAX : status, first;
    MPI_Allreduce(&mine, &first, 1, MPI_UINT32_T, MPI_MIN, comm);
    return first == UINT32_MAX ? LIKTROB_OK : first;
}

static size_t min(size_t a, size_t b) { return a < b ? a : b; }

static uint64_t times(uint64_t a, uint64_t b, uint64_t modulus) { return (uint64_t)((product)a * b % modulus); }

static uint64_t power(uint64_t a, uint64_t exponent, uint64_t modulus) {
    uint64_t result = 1;
    for (; exponent > 0; exponent >>= 1, a = times(a, a, modulus))
        if (exponent & 1) result = times(result, a, modulus);
    return result;
}

/* A block of n numbers; one of none is a block, too. */
static void *room(size_t n, size_t word) { return n > SIZE_MAX / word ? NULL : malloc(n > 0 ? n * word : 1); }

/* Of so many rows and columns some columns, as one item. */
static MPI_Datatype columns_of(size_t rows, size_t count, size_t width, MPI_Datatype word) {
    MPI_Datatype row, stride, columns;
    MPI_Aint first, extent;
    MPI_Type_get_extent(word, &first, &extent);
    MPI_Type_contiguous((int)count, word, &row);
    MPI_Type_create_hvector((int)rows, 1, (MPI_Aint)width * extent, row, &stride);
    /* The next item begins where these columns end. */
    MPI_Type_create_resized(stride, 0, (MPI_Aint)count * extent, &columns);
    MPI_Type_commit(&columns);
    MPI_Type_free(&row);
    MPI_Type_free(&stride);
    return columns;
}

/* The columns that rank has: from first on, so many. */
struct share {
    size_t first, count;
};

static struct share share_of(int rank, int ranks, size_t width) {
    size_t each = width / (size_t)ranks, more = width % (size_t)ranks, at = (size_t)rank;
    return (struct share){at * each + min(at, more), each + (at < more)};
}

/* A matrix of rank 0 with the given height and width, from rank 0 to the shares of all, or to it from these. */
static void scatter(void *words, void *mine, size_t height, size_t width, MPI_Datatype word, int is_gather,
                    MPI_Comm comm) {
    int rank, ranks, size;
    MPI_Comm_rank(comm, &rank);
    MPI_Comm_size(comm, &ranks);
    MPI_Type_size(word, &size);
    struct share own = share_of(rank, ranks, width);
    MPI_Request request;
    if (own.count > 0) {
        MPI_Datatype columns = columns_of(height, own.count, own.count, word);
        if (is_gather) MPI_Isend(mine, 1, columns, 0, 0, comm, &request);
        else MPI_Irecv(mine, 1, columns, 0, 0, comm, &request);
        MPI_Type_free(&columns);
    }
    for (int other = 0; rank == 0 && other < ranks; other++) {
        struct share share = share_of(other, ranks, width);
        if (share.count == 0) continue;
        MPI_Datatype columns = columns_of(height, share.count, width, word);
        char *place = (char *)words + share.first * (size_t)size;
        if (is_gather) MPI_Recv(place, 1, columns, other, 0, comm, MPI_STATUS_IGNORE);
        else MPI_Send(place, 1, columns, other, 0, comm);
        MPI_Type_free(&columns);
    }
    if (own.count > 0) MPI_Wait(&request, MPI_STATUS_IGNORE);
}

/* Whether a matrix has the shape that the library transforms. Of another it tells which fault it has. */
static int fits(size_t len, size_t width, size_t added_bits, size_t out_len, size_t two_adicity) {
    if (width == 0 || width > INT_MAX || len % width != 0) return 0;
    size_t height = len / width;
    if (height == 0 || (height & (height - 1)) != 0 || added_bits > two_adicity) return 0;
    size_t bits = added_bits;
    while (height >> (bits - added_bits) > 1) bits++;
    return bits <= two_adicity && bits < 31 && out_len >> added_bits == len && len << added_bits == out_len;
}

/* A matrix in parts: before an extension R wide rows, and after it out_parts of them. */
struct parts {
    size_t rank, ranks;
    size_t log_out_height;
    size_t part_height;        /* m, the rows of a wide row */
    size_t parts, out_parts;   /* wide rows */
    size_t wide, columns;      /* numbers of a wide row, and of it on a rank */
    size_t own_rows, own_outs; /* wide rows of a rank */
};

/* The parts on the ranks of a communicator, where it has a number of ranks that serves. */
static int in_parts(struct parts *parts, size_t log_height, size_t width, size_t added_bits, size_t two_adicity,
                    MPI_Comm comm) {
    int rank, ranks;
    MPI_Comm_rank(comm, &rank);
    MPI_Comm_size(comm, &ranks);
    if (log_height > two_adicity || added_bits > two_adicity - log_height || width == 0) return 0;
    size_t log_part_height = log_height / 2, log_parts = log_height - log_part_height;
    *parts = (struct parts){.rank = (size_t)rank, .ranks = (size_t)ranks, .log_out_height = log_height + added_bits};
    parts->part_height = (size_t)1 << log_part_height;
    parts->parts = (size_t)1 << log_parts;
    parts->out_parts = parts->parts << added_bits;
    if ((ranks & (ranks - 1)) != 0 || parts->ranks > parts->part_height) return 0;
    if (width > INT_MAX / parts->part_height || parts->out_parts > INT_MAX) return 0;
    parts->wide = parts->part_height * width;
    parts->columns = parts->wide / parts->ranks;
    parts->own_rows = parts->parts / parts->ranks;
    parts->own_outs = parts->out_parts / parts->ranks;
    return 1;
}

/* Each rank gives its columns of wide rows for wide rows, of which so many are a rank's, or takes them back. */
static void exchange(const struct parts *parts, void *columns, void *wide_rows, size_t rows, MPI_Datatype word,
                     int is_back, MPI_Comm comm) {
    MPI_Datatype of_columns = columns_of(rows, parts->columns, parts->columns, word), block;
    MPI_Datatype of_rows = columns_of(rows, parts->columns, parts->wide, word);
    MPI_Aint first, extent;
    MPI_Type_get_extent(word, &first, &extent);
    MPI_Type_create_resized(of_columns, 0, (MPI_Aint)(rows * parts->columns) * extent, &block);
    MPI_Type_commit(&block);
    if (is_back) MPI_Alltoall(wide_rows, 1, of_rows, columns, 1, block, comm);
    else MPI_Alltoall(columns, 1, block, wide_rows, 1, of_rows, comm);
    MPI_Type_free(&of_columns);
    MPI_Type_free(&of_rows);
    MPI_Type_free(&block);
}

#define JOIN(A, B, C, D) A##B##C##D
#define JOINED(A, B, C, D) JOIN(A, B, C, D)
#define LIBRARY(CALL) JOINED(liktrob_, FIELD, _, CALL)
#define OURS(CALL) JOINED(liktrob_mpi_, FIELD, _, CALL)
#define LOCAL(NAME) JOINED(FIELD, _, NAME, )

#define FIELD baby_bear
#define WORD uint32_t
#define WORD_OF_MPI MPI_UINT32_T
#define MODULUS LIKTROB_BABY_BEAR_MODULUS
#define TWO_ADICITY 27
#include "liktrob_mpi_field.h"

#define FIELD koala_bear
#define WORD uint32_t
#define WORD_OF_MPI MPI_UINT32_T
#define MODULUS LIKTROB_KOALA_BEAR_MODULUS
#define TWO_ADICITY 24
#include "liktrob_mpi_field.h"

#define FIELD goldilocks
#define WORD uint64_t
#define WORD_OF_MPI MPI_UINT64_T
#define MODULUS LIKTROB_GOLDILOCKS_MODULUS
#define TWO_ADICITY 32
#include "liktrob_mpi_field.h"
