/* SPDX-License-Identifier: MIT OR Apache-2.0
 *
 * liktrob.h: proved Fourier transforms over the finite fields BabyBear, KoalaBear and Goldilocks. C99 and C++.
 *
 * A matrix is len numbers, row after row, width to a row. Each column is one polynomial: its coefficients, or its
 * values. The height, len / width, is a power of two, at most 2^27 (BabyBear), 2^24 (KoalaBear) or 2^32 (Goldilocks).
 * A number is canonical: below the modulus of its field. Row i of values belongs to the point shift * g^i, where
 * g = generator^((modulus - 1) / height) generates the subgroup of that order. These are the points of p3-dft.
 *
 * Each function answers a status. Of several faults the first in the list of statuses is answered. Where the status is
 * not LIKTROB_OK, no number that was lent has changed. No function has a condition on the numbers, len, width,
 * added_bits, shift, step, out_len, bits, index and engine that it is given: whatever they are, the answer is a status.
 *
 * What the caller owes:
 *   - A pointer is not null and is aligned for its type. This holds where len is 0, too: any aligned address serves.
 *   - Behind words stand len numbers, behind out stand out_len numbers, behind answer stands one.
 *   - During a call nothing else reads or writes a buffer that the call writes, and nothing writes one that it reads.
 *     So words and out do not overlap.
 *   - malloc, realloc and free belong to one allocator, which aligns a block of n bytes to each power of two up to 16
 *     that divides n.
 *   - No call is made in a signal handler, or in the forked child of a process that had several threads.
 * Nothing is kept between calls. Calls in several threads at once are independent.
 */
#ifndef LIKTROB_H
#define LIKTROB_H

#include <stddef.h>
#include <stdint.h>

/* The version of this header, which tools/build_library writes here. liktrob_version() is that of the library: the two
 * are one text where they belong together. */
#define LIKTROB_VERSION "@VERSION@"
#define LIKTROB_VERSION_MAJOR @VERSION_MAJOR@
#define LIKTROB_VERSION_MINOR @VERSION_MINOR@
#define LIKTROB_VERSION_PATCH @VERSION_PATCH@
#define LIKTROB_VERSION_BUILD @VERSION_BUILD@

#ifdef __cplusplus
extern "C" {
#endif

const char *liktrob_version(void);

enum liktrob_status {
    LIKTROB_OK = 0,     /* answered */
    LIKTROB_ENGINE = 1, /* no engine has this number */
    LIKTROB_NUMBER = 2, /* a number, the shift or the step is not below the modulus */
    LIKTROB_SHAPE = 3,  /* width is 0, the numbers fill no whole rows, the height is no power of two or is too high for
                           the field, out_len is another length, or there are too many bits */
    LIKTROB_SHIFT = 4,  /* the shift is 0 and has no inverse: coset_idft and is_codeword, and coset_idft_columns where
                           the shift of some column is 0 */
    LIKTROB_MEMORY = 5  /* malloc or realloc answered null */
};

/* All engines answer the same. They differ in time and in memory. */
enum liktrob_engine {
    LIKTROB_DEFAULT = 0, /* the one that was fastest, by call and shape */
    LIKTROB_NAIVE_DFT = 1,
    LIKTROB_RADIX_2_DIT = 2,
    LIKTROB_RADIX_2_BOWERS = 3,
    LIKTROB_RADIX_2_DIT_PARALLEL = 4,
    LIKTROB_RADIX_2_DFT_SMALL_BATCH = 5
};

#define LIKTROB_BABY_BEAR_MODULUS UINT32_C(2013265921)            /* 2^31 - 2^27 + 1, generator 31 */
#define LIKTROB_KOALA_BEAR_MODULUS UINT32_C(2130706433)           /* 2^31 - 2^24 + 1, generator 3 */
#define LIKTROB_GOLDILOCKS_MODULUS UINT64_C(18446744069414584321) /* 2^64 - 2^32 + 1, generator 7 */

/* The nine functions of a field.
 *
 * coset_dft: in place, the coefficients of the columns' polynomials become their values on the coset of shift.
 *
 * coset_idft: in place, values on the coset of shift become the only coefficients that have them.
 *
 * coset_lde: words are values on the subgroup. out becomes the values of the same polynomials on the coset of shift of
 *     the subgroup 2^added_bits times as large. out_len is len * 2^added_bits.
 *
 * coset_lde_bit_reversed: the same with rows in another order. Row i of out belongs to the point whose number has the
 *     binary digits of i in reverse.
 *
 * coset_dft_padded: words are coefficients. out becomes the values of their polynomials on the coset of shift of the
 *     subgroup 2^added_bits times as large. coset_idft with the shift 1 and then coset_dft_padded are coset_lde, and
 *     between them the caller may change the coefficients.
 *
 * is_codeword: words are values on the coset of shift, in len / width = 2^(k + added_bits) rows. *answer becomes 1
 *     where each column has the values of a polynomial with 2^k coefficients, and else 0. It is written only where the
 *     status is LIKTROB_OK.
 *
 * coset_dft_columns: in place, coset_dft of each column on a coset of its own: column j on the coset of
 *     shift * step^j. Row i of column j belongs to the point shift * step^j * g^i.
 *
 * coset_idft_columns: in place, coset_idft of each column on a coset of its own: column j on the coset of
 *     shift * step^j.
 *
 * point: *answer becomes shift * g^index, where g generates the subgroup of order 2^bits: the point of row index, or of
 *     row index modulo 2^bits. It is written only where the status is LIKTROB_OK.
 *
 * A shift of 1 is the subgroup itself. A shift of 0 stands for the point 0 in each row.
 */
#define LIKTROB_DECLARE(FIELD, WORD)                                                                                   \
    uint32_t liktrob_##FIELD##_coset_dft(uint32_t engine, WORD *words, size_t len, size_t width, WORD shift);          \
    uint32_t liktrob_##FIELD##_coset_idft(uint32_t engine, WORD *words, size_t len, size_t width, WORD shift);         \
    uint32_t liktrob_##FIELD##_coset_lde(uint32_t engine, const WORD *words, size_t len, size_t width,                 \
                                         size_t added_bits, WORD shift, WORD *out, size_t out_len);                    \
    uint32_t liktrob_##FIELD##_coset_lde_bit_reversed(uint32_t engine, const WORD *words, size_t len, size_t width,    \
                                                      size_t added_bits, WORD shift, WORD *out, size_t out_len);       \
    uint32_t liktrob_##FIELD##_coset_dft_padded(uint32_t engine, const WORD *words, size_t len, size_t width,          \
                                                size_t added_bits, WORD shift, WORD *out, size_t out_len);             \
    uint32_t liktrob_##FIELD##_is_codeword(uint32_t engine, const WORD *words, size_t len, size_t width,               \
                                           size_t added_bits, WORD shift, uint32_t *answer);                           \
    uint32_t liktrob_##FIELD##_coset_dft_columns(uint32_t engine, WORD *words, size_t len, size_t width, WORD shift,   \
                                                 WORD step);                                                           \
    uint32_t liktrob_##FIELD##_coset_idft_columns(uint32_t engine, WORD *words, size_t len, size_t width, WORD shift,  \
                                                  WORD step);                                                          \
    uint32_t liktrob_##FIELD##_point(size_t bits, WORD shift, size_t index, WORD *answer);

LIKTROB_DECLARE(baby_bear, uint32_t)
LIKTROB_DECLARE(koala_bear, uint32_t)
LIKTROB_DECLARE(goldilocks, uint64_t)

#undef LIKTROB_DECLARE

#ifdef __cplusplus
}
#endif

#endif
