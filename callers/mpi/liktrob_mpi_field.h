/* SPDX-License-Identifier: MIT OR Apache-2.0
 *
 * The calls over one field. liktrob_mpi.c includes this for each field, with FIELD and its numbers. */

static int LOCAL(are_below)(const WORD *words, size_t len) {
    for (size_t i = 0; i < len; i++)
        if (words[i] >= MODULUS) return 0;
    return 1;
}

/* By columns. */

typedef uint32_t LOCAL(extension_of)(uint32_t engine, const WORD *words, size_t len, size_t width, size_t added_bits,
                                     WORD shift, WORD *out, size_t out_len);

/* A call on rank 0 alone, of which all are told the status. */
static uint32_t LOCAL(whole)(LOCAL(extension_of) *call, uint32_t engine, const WORD *words, size_t len, size_t width,
                             size_t added_bits, WORD shift, WORD *out, size_t out_len, MPI_Comm comm) {
    int rank;
    uint32_t status = LIKTROB_OK;
    MPI_Comm_rank(comm, &rank);
    if (rank == 0) status = call(engine, words, len, width, added_bits, shift, out, out_len);
    MPI_Bcast(&status, 1, MPI_UINT32_T, 0, comm);
    return status;
}

/* The columns of rank 0 on all ranks. */
static uint32_t LOCAL(by_columns)(LOCAL(extension_of) *call, uint32_t engine, const WORD *words, size_t len,
                                  size_t width, size_t added_bits, WORD shift, WORD *out, size_t out_len,
                                  MPI_Comm comm) {
    int rank, ranks;
    MPI_Comm_rank(comm, &rank);
    MPI_Comm_size(comm, &ranks);
    if (ranks == 1 || engine > LIKTROB_RADIX_2_DFT_SMALL_BATCH || shift >= MODULUS ||
        !fits(len, width, added_bits, out_len, TWO_ADICITY))
        return LOCAL(whole)(call, engine, words, len, width, added_bits, shift, out, out_len, comm);
    size_t height = len / width, count = share_of(rank, ranks, width).count;
    WORD *mine = room(height * count, sizeof *mine), *answer = room((height << added_bits) * count, sizeof *answer);
    uint32_t status = agreed(mine == NULL || answer == NULL ? LIKTROB_MEMORY : LIKTROB_OK, comm);
    if (status == LIKTROB_OK) {
        scatter((void *)(uintptr_t)words, mine, height, width, WORD_OF_MPI, 0, comm);
        if (count > 0)
            status = call(engine, mine, height * count, count, added_bits, shift, answer,
                          (height << added_bits) * count);
        status = agreed(status, comm);
    }
    if (status == LIKTROB_OK) scatter(out, answer, height << added_bits, width, WORD_OF_MPI, 1, comm);
    free(mine);
    free(answer);
    /* A number that is too large comes before memory that is refused. */
    if (status == LIKTROB_MEMORY && rank == 0 && !LOCAL(are_below)(words, len)) status = LIKTROB_NUMBER;
    return agreed(status, comm);
}

/* The calls in place as calls with an output. */
static uint32_t LOCAL(dft)(uint32_t engine, const WORD *words, size_t len, size_t width, size_t added_bits, WORD shift,
                           WORD *out, size_t out_len) {
    (void)added_bits;
    if (out != words) memcpy(out, words, out_len * sizeof *out);
    return LIBRARY(coset_dft)(engine, out, len, width, shift);
}

static uint32_t LOCAL(idft)(uint32_t engine, const WORD *words, size_t len, size_t width, size_t added_bits, WORD shift,
                            WORD *out, size_t out_len) {
    (void)added_bits;
    if (out != words) memcpy(out, words, out_len * sizeof *out);
    return LIBRARY(coset_idft)(engine, out, len, width, shift);
}

uint32_t OURS(coset_dft)(uint32_t engine, WORD *words, size_t len, size_t width, WORD shift, MPI_Comm comm) {
    return LOCAL(by_columns)(LOCAL(dft), engine, words, len, width, 0, shift, words, len, comm);
}

uint32_t OURS(coset_idft)(uint32_t engine, WORD *words, size_t len, size_t width, WORD shift, MPI_Comm comm) {
    return LOCAL(by_columns)(LOCAL(idft), engine, words, len, width, 0, shift, words, len, comm);
}

uint32_t OURS(coset_lde)(uint32_t engine, const WORD *words, size_t len, size_t width, size_t added_bits, WORD shift,
                         WORD *out, size_t out_len, MPI_Comm comm) {
    return LOCAL(by_columns)(LIBRARY(coset_lde), engine, words, len, width, added_bits, shift, out, out_len, comm);
}

uint32_t OURS(coset_lde_bit_reversed)(uint32_t engine, const WORD *words, size_t len, size_t width, size_t added_bits,
                                      WORD shift, WORD *out, size_t out_len, MPI_Comm comm) {
    return LOCAL(by_columns)(LIBRARY(coset_lde_bit_reversed), engine, words, len, width, added_bits, shift, out,
                             out_len, comm);
}

uint32_t OURS(coset_dft_padded)(uint32_t engine, const WORD *words, size_t len, size_t width, size_t added_bits,
                                WORD shift, WORD *out, size_t out_len, MPI_Comm comm) {
    return LOCAL(by_columns)(LIBRARY(coset_dft_padded), engine, words, len, width, added_bits, shift, out, out_len,
                             comm);
}

uint32_t OURS(is_codeword)(uint32_t engine, const WORD *words, size_t len, size_t width, size_t added_bits, WORD shift,
                           uint32_t *answer, MPI_Comm comm) {
    int rank, ranks;
    MPI_Comm_rank(comm, &rank);
    MPI_Comm_size(comm, &ranks);
    int is_shared = ranks > 1 && engine <= LIKTROB_RADIX_2_DFT_SMALL_BATCH && shift > 0 && shift < MODULUS &&
                    fits(len, width, 0, len, TWO_ADICITY);
    size_t height = is_shared ? len / width : 0, count = is_shared ? share_of(rank, ranks, width).count : 0;
    uint32_t yes = 1, all, status = LIKTROB_OK;
    if (is_shared) {
        WORD *mine = room(height * count, sizeof *mine);
        status = agreed(mine == NULL ? LIKTROB_MEMORY : LIKTROB_OK, comm);
        if (status == LIKTROB_OK) {
            scatter((void *)(uintptr_t)words, mine, height, width, WORD_OF_MPI, 0, comm);
            if (count > 0)
                status = LIBRARY(is_codeword)(engine, mine, height * count, count, added_bits, shift, &yes);
        }
        free(mine);
        status = agreed(status, comm);
        if (status == LIKTROB_MEMORY && rank == 0 && !LOCAL(are_below)(words, len)) status = LIKTROB_NUMBER;
    } else if (rank == 0) {
        status = LIBRARY(is_codeword)(engine, words, len, width, added_bits, shift, &yes);
    }
    status = agreed(status, comm);
    MPI_Allreduce(&yes, &all, 1, MPI_UINT32_T, MPI_MIN, comm);
    if (status == LIKTROB_OK) *answer = all;
    return status;
}

/* By parts. */

/* The first fault of the arguments and of a part, before memory is asked for. */
static uint32_t LOCAL(fault)(uint32_t engine, const WORD *part, size_t len, int is_in_parts, WORD shift,
                             int needs_inverse, MPI_Comm comm) {
    uint32_t status = LIKTROB_OK;
    if (engine > LIKTROB_RADIX_2_DFT_SMALL_BATCH) return LIKTROB_ENGINE;
    if (shift >= MODULUS) return LIKTROB_NUMBER;
    if (!is_in_parts) return LIKTROB_SHAPE;
    if (!LOCAL(are_below)(part, len)) status = LIKTROB_NUMBER;
    status = agreed(status, comm);
    return status == LIKTROB_OK && needs_inverse && shift == 0 ? LIKTROB_SHIFT : status;
}

/* The point shift * g^index, where g generates the subgroup of order 2^bits. The shift is below the modulus, and the
 * field has so many bits. */
static WORD LOCAL(point_of)(size_t bits, WORD shift, size_t index) {
    WORD answer = 0;
    LIBRARY(point)(bits, shift, index, &answer);
    return answer;
}

/* Each wide row of this rank, of count, through the library, on the coset of its own point. */
static uint32_t LOCAL(rows)(const struct parts *parts, uint32_t engine, WORD *wide_rows, size_t count, size_t width,
                            size_t log_height, WORD shift, int is_inverse) {
    uint32_t status = LIKTROB_OK;
    for (size_t i = 0; status == LIKTROB_OK && i < count; i++) {
        WORD *row = wide_rows + i * parts->wide, at = LOCAL(point_of)(log_height, shift, parts->rank * count + i);
        status = is_inverse ? LIBRARY(coset_idft)(engine, row, parts->wide, width, at)
                            : LIBRARY(coset_dft)(engine, row, parts->wide, width, at);
    }
    return status;
}

/* The same of a matrix of one column, where the wide rows are turned: they are columns beside each other, whose cosets
 * are in a progression. */
static uint32_t LOCAL(columns)(const struct parts *parts, uint32_t engine, WORD *turned, size_t count,
                               size_t log_height, WORD shift, int is_inverse) {
    WORD first = LOCAL(point_of)(log_height, shift, parts->rank * count), g = LOCAL(point_of)(log_height, 1, 1);
    size_t len = count * parts->wide;
    return is_inverse ? LIBRARY(coset_idft_columns)(engine, turned, len, count, first, g)
                      : LIBRARY(coset_dft_columns)(engine, turned, len, count, first, g);
}

/* Row j of wide row i, of count wide rows, becomes row i + count * j, or the other way round. */
static void LOCAL(turn)(const struct parts *parts, WORD *to, const WORD *from, size_t count, size_t width,
                        int is_back) {
    for (size_t j = 0; j < parts->part_height; j++)
        for (size_t i = 0; i < count; i++) {
            size_t in_row = i * parts->wide + j * width, in_column = (j * count + i) * width;
            WORD *here = to + (is_back ? in_row : in_column);
            const WORD *there = from + (is_back ? in_column : in_row);
            if (width == 1) *here = *there;
            else memcpy(here, there, width * sizeof *to);
        }
}

uint32_t OURS(coset_dft_padded_by_parts)(uint32_t engine, const WORD *part, size_t log_height, size_t width,
                                         size_t added_bits, WORD shift, WORD *out, MPI_Comm comm) {
    struct parts parts = {0};
    int is_in_parts = in_parts(&parts, log_height, width, added_bits, TWO_ADICITY, comm);
    size_t len = parts.parts * parts.columns, out_len = parts.out_parts * parts.columns;
    uint32_t status = LOCAL(fault)(engine, part, len, is_in_parts, shift, 0, comm);
    if (status != LIKTROB_OK) return status;
    WORD *columns = room(out_len, sizeof *columns);
    if (columns == NULL) status = LIKTROB_MEMORY;
    else
        status = LIBRARY(coset_dft_padded)(engine, part, len, parts.columns, added_bits,
                                           (WORD)power(shift, parts.part_height, MODULUS), columns, out_len);
    status = agreed(status, comm);
    if (status == LIKTROB_OK) {
        exchange(&parts, columns, out, parts.own_outs, WORD_OF_MPI, 0, comm);
        if (width > 1) status = LOCAL(rows)(&parts, engine, out, parts.own_outs, width, parts.log_out_height, shift, 0);
        LOCAL(turn)(&parts, columns, out, parts.own_outs, width, 0);
        if (width == 1)
            status = LOCAL(columns)(&parts, engine, columns, parts.own_outs, parts.log_out_height, shift, 0);
        status = agreed(status, comm);
    }
    if (status == LIKTROB_OK) memcpy(out, columns, out_len * sizeof *out);
    free(columns);
    return status;
}

uint32_t OURS(coset_dft_by_parts)(uint32_t engine, WORD *part, size_t log_height, size_t width, WORD shift,
                                  MPI_Comm comm) {
    return OURS(coset_dft_padded_by_parts)(engine, part, log_height, width, 0, shift, part, comm);
}

uint32_t OURS(coset_idft_by_parts)(uint32_t engine, WORD *part, size_t log_height, size_t width, WORD shift,
                                   MPI_Comm comm) {
    struct parts parts = {0};
    int is_in_parts = in_parts(&parts, log_height, width, 0, TWO_ADICITY, comm);
    size_t len = parts.parts * parts.columns;
    uint32_t status = LOCAL(fault)(engine, part, len, is_in_parts, shift, 1, comm);
    if (status != LIKTROB_OK) return status;
    WORD *wide_rows = room(len, sizeof *wide_rows);
    if (wide_rows == NULL) {
        status = LIKTROB_MEMORY;
    } else {
        if (width == 1) status = LOCAL(columns)(&parts, engine, part, parts.own_rows, log_height, shift, 1);
        LOCAL(turn)(&parts, wide_rows, part, parts.own_rows, width, 1);
        if (width > 1) status = LOCAL(rows)(&parts, engine, wide_rows, parts.own_rows, width, log_height, shift, 1);
    }
    status = agreed(status, comm);
    if (status == LIKTROB_OK) {
        exchange(&parts, part, wide_rows, parts.own_rows, WORD_OF_MPI, 1, comm);
        status = LIBRARY(coset_idft)(engine, part, len, parts.columns,
                                     (WORD)power(shift, parts.part_height, MODULUS));
        status = agreed(status, comm);
    }
    free(wide_rows);
    return status;
}

#undef FIELD
#undef WORD
#undef WORD_OF_MPI
#undef MODULUS
#undef TWO_ADICITY
