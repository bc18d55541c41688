/* SPDX-License-Identifier: MIT OR Apache-2.0
 *
 * liktrob_parallel.h: the calls of liktrob.h on several threads. C99 and C++. They are written in C over the proved
 * functions, and tested, not proved.
 *
 * Each call has one argument more than its namesake in liktrob.h: on how many threads it works at most, of which the
 * calling thread is the first. 0 counts as 1. There is at most one thread for each 64 KiB of the matrix, so a small one
 * is transformed on the calling thread, and there are at most 1024. The answer is the same for any number of threads.
 *
 * Statuses are those of liktrob.h. Where the status is not LIKTROB_OK, no number that was lent has changed. A transform
 * takes one matrix of memory more, an extension one of the input's size and one of the output's, and each thread
 * 512 KiB and more. Where these are refused, one call on the calling thread answers. Where a thread is refused, fewer
 * work.
 *
 * The library has these calls with POSIX threads, which end before a call returns. To have them on OpenMP's threads,
 * compile liktrob_parallel.c with -fopenmp and link it before the library; GCC's OpenMP ends the program where a thread
 * is refused.
 */
#ifndef LIKTROB_PARALLEL_H
#define LIKTROB_PARALLEL_H

#include "liktrob.h"

#ifdef __cplusplus
extern "C" {
#endif

#define LIKTROB_PARALLEL_IN_PLACE(FIELD, WORD, CALL)                                                                   \
    uint32_t liktrob_parallel_##FIELD##_##CALL(uint32_t engine, WORD *words, size_t len, size_t width, WORD shift,     \
                                               size_t threads);

#define LIKTROB_PARALLEL_EXTENSION(FIELD, WORD, CALL)                                                                  \
    uint32_t liktrob_parallel_##FIELD##_##CALL(uint32_t engine, const WORD *words, size_t len, size_t width,           \
                                               size_t added_bits, WORD shift, WORD *out, size_t out_len,               \
                                               size_t threads);

#define LIKTROB_PARALLEL_DECLARE(FIELD, WORD)                                                                          \
    LIKTROB_PARALLEL_IN_PLACE(FIELD, WORD, coset_dft)                                                                  \
    LIKTROB_PARALLEL_IN_PLACE(FIELD, WORD, coset_idft)                                                                 \
    LIKTROB_PARALLEL_EXTENSION(FIELD, WORD, coset_lde)                                                                 \
    LIKTROB_PARALLEL_EXTENSION(FIELD, WORD, coset_lde_bit_reversed)                                                    \
    LIKTROB_PARALLEL_EXTENSION(FIELD, WORD, coset_dft_padded)                                                          \
    uint32_t liktrob_parallel_##FIELD##_is_codeword(uint32_t engine, const WORD *words, size_t len, size_t width,      \
                                                    size_t added_bits, WORD shift, uint32_t *answer, size_t threads);

LIKTROB_PARALLEL_DECLARE(baby_bear, uint32_t)
LIKTROB_PARALLEL_DECLARE(koala_bear, uint32_t)
LIKTROB_PARALLEL_DECLARE(goldilocks, uint64_t)

#undef LIKTROB_PARALLEL_DECLARE
#undef LIKTROB_PARALLEL_EXTENSION
#undef LIKTROB_PARALLEL_IN_PLACE

#ifdef __cplusplus
}
#endif

#endif
