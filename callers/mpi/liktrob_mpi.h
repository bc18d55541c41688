/* SPDX-License-Identifier: MIT OR Apache-2.0
 *
 * liktrob_mpi.h: the calls of liktrob.h on the ranks of an MPI communicator. C99 and C++. They are written in C over
 * the proved functions, and tested, not proved.
 *
 * Each call is made by all ranks, with the same arguments but for words, out and part. All ranks return the same
 * status, which is one of liktrob.h: a rank that has no memory is a LIKTROB_MEMORY of all.
 *
 * By columns: words and out are those of rank 0, and other ranks may pass null. The columns are scattered over the
 * ranks, which work on them by themselves, and gathered. Where the status is not LIKTROB_OK, nothing has changed.
 *
 * By parts: no rank has the matrix. There are 2^log_height = R * m rows, where R = m or R = 2 * m. The number of ranks
 * is a power of two and at most m, else the status is LIKTROB_SHAPE. A rank has one part of as many as there are ranks:
 *   - of coefficients, which are R rows of m * width numbers here: its share of these columns, row after row;
 *   - of values, which are m rows of R * 2^added_bits * width numbers: its share of these columns, row after row.
 * Both are 1 / ranks of the whole matrix, whose rows are in natural order. A call makes one exchange of all ranks with
 * all, and takes memory for one part of its answer. Where the status is not LIKTROB_OK, what it writes may have
 * changed.
 *
 * An extension of values is coset_idft_by_parts with the shift 1, and then coset_dft_padded_by_parts.
 */
#ifndef LIKTROB_MPI_H
#define LIKTROB_MPI_H

#include <mpi.h>

#include "liktrob.h"

#ifdef __cplusplus
extern "C" {
#endif

#define LIKTROB_MPI_IN_PLACE(FIELD, WORD, CALL)                                                                        \
    uint32_t liktrob_mpi_##FIELD##_##CALL(uint32_t engine, WORD *words, size_t len, size_t width, WORD shift,          \
                                          MPI_Comm comm);                                                              \
    uint32_t liktrob_mpi_##FIELD##_##CALL##_by_parts(uint32_t engine, WORD *part, size_t log_height, size_t width,     \
                                                     WORD shift, MPI_Comm comm);

#define LIKTROB_MPI_EXTENSION(FIELD, WORD, CALL)                                                                       \
    uint32_t liktrob_mpi_##FIELD##_##CALL(uint32_t engine, const WORD *words, size_t len, size_t width,                \
                                          size_t added_bits, WORD shift, WORD *out, size_t out_len, MPI_Comm comm);

#define LIKTROB_MPI_DECLARE(FIELD, WORD)                                                                               \
    LIKTROB_MPI_IN_PLACE(FIELD, WORD, coset_dft)                                                                       \
    LIKTROB_MPI_IN_PLACE(FIELD, WORD, coset_idft)                                                                      \
    LIKTROB_MPI_EXTENSION(FIELD, WORD, coset_lde)                                                                      \
    LIKTROB_MPI_EXTENSION(FIELD, WORD, coset_lde_bit_reversed)                                                         \
    LIKTROB_MPI_EXTENSION(FIELD, WORD, coset_dft_padded)                                                               \
    uint32_t liktrob_mpi_##FIELD##_is_codeword(uint32_t engine, const WORD *words, size_t len, size_t width,           \
                                               size_t added_bits, WORD shift, uint32_t *answer, MPI_Comm comm);        \
    uint32_t liktrob_mpi_##FIELD##_coset_dft_padded_by_parts(uint32_t engine, const WORD *part, size_t log_height,     \
                                                             size_t width, size_t added_bits, WORD shift, WORD *out,   \
                                                             MPI_Comm comm);

LIKTROB_MPI_DECLARE(baby_bear, uint32_t)
LIKTROB_MPI_DECLARE(koala_bear, uint32_t)
LIKTROB_MPI_DECLARE(goldilocks, uint64_t)

#undef LIKTROB_MPI_DECLARE
#undef LIKTROB_MPI_EXTENSION
#undef LIKTROB_MPI_IN_PLACE

#ifdef __cplusplus
}
#endif

#endif
