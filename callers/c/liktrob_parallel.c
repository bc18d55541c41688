/* SPDX-License-Identifier: MIT OR Apache-2.0
 *
 * liktrob_parallel.c: the calls of liktrob_parallel.h, by parts. C11, with OpenMP where the compiler has it on, else
 * with POSIX threads.
 *
 * The 2^k = R * m rows of w numbers of a matrix are also R wide rows of m * w numbers. Let g generate the subgroup of
 * order 2^k. A transform on the coset of shift is
 *
 *   1. coset_dft of the wide rows, as R rows of m * w columns, with the shift shift^m;
 *   2. coset_dft of wide row i alone, as m rows of w columns, with the shift shift * g^i: its row j is row i + R * j of
 *      the answer.
 *
 * An inverse is the inverses of these in reverse order. An extension is an inverse of each wide row, an extension of
 * the wide rows, and a transform of each wide row of the larger matrix. The columns of step 1 and the wide rows of step
 * 2 are independent of each other, so threads take them in any order.
 *
 * Where w = 1, wide rows one after another are turned to columns, whose cosets are in a progression: step 2 is then
 * coset_dft_columns with the step g, and its rows are pieces of the answer.
 *
 * All this happens in memory of its own. The caller's words change in a last step, which cannot fail.
 */
#define _POSIX_C_SOURCE 200809L

#include "liktrob_parallel.h"

#include <stdatomic.h>
#include <stdlib.h>
#include <string.h>
#ifndef _OPENMP
#include <pthread.h>
#include <signal.h>
#endif

/* How many bytes of the matrix there are for each thread at least, and how many threads there are at most. */
#ifndef LIKTROB_PARALLEL_LEAST
#define LIKTROB_PARALLEL_LEAST ((size_t)1 << 16)
#endif
enum { MOST_THREADS = 1024 };

/* A task works on about so many bytes, which the cache of a processor holds, and copies whole lines of the cache. Wide
 * rows that are turned to columns have lines of up to LANES bytes, so that tables serve many of them. */
enum { TASK = 1 << 18, LINE = 64, LANES = 4 * LINE };

typedef uint32_t transform_of(uint32_t engine, void *words, size_t len, size_t width, uint64_t shift);
typedef uint32_t columns_of(uint32_t engine, void *words, size_t len, size_t width, uint64_t shift, uint64_t step);
typedef uint32_t extension_of(uint32_t engine, const void *words, size_t len, size_t width, size_t added_bits,
                              uint64_t shift, void *out, size_t out_len);
typedef uint32_t test_of(uint32_t engine, const void *words, size_t len, size_t width, size_t added_bits,
                         uint64_t shift, uint32_t *answer);
typedef uint64_t point_of(size_t bits, uint64_t shift, size_t index);

/* A field, and the library's calls over it. */
struct field {
    uint64_t modulus;
    size_t two_adicity, word; /* a word in bytes */
    transform_of *dft, *idft;
    columns_of *dft_columns, *idft_columns;
    extension_of *lde, *lde_bit_reversed, *padded;
    test_of *is_codeword;
    point_of *point;
};

/* The caller's matrix and the answer that is asked for. */
struct call {
    const struct field *field;
    uint32_t engine;
    const void *words;
    size_t len, width, added_bits;
    uint64_t shift;
    void *out;
    size_t out_len;
    size_t threads;
};

/* The matrix as wide rows: before an extension 2^log_parts of them, and after it 2^log_out_parts. */
struct parts {
    size_t log_height, log_parts, log_out_parts;
    size_t part_height; /* rows in a wide row */
    size_t row, wide;   /* bytes in a row, and in a wide row */
    size_t chunk;       /* words of a wide row for a task on columns */
    size_t group;       /* wide rows of a task on rows */
    int is_column;      /* whether a row is one number, so that a group is turned to columns */
};

struct job;

/* Does a task of a phase, with memory that no other thread uses meanwhile. */
typedef uint32_t task_of(struct job *job, size_t index, char *scratch);

struct phase {
    task_of *task;
    size_t tasks;
    atomic_size_t next;
};

enum { PHASES = 4 };

struct job {
    const struct call *call;
    struct parts parts;
    char *first, *second; /* the matrix as wide rows, before and after an extension */
    char *scratch;
    size_t scratch_each;
    transform_of *by_columns;   /* what becomes of columns in place */
    extension_of *by_extension; /* what becomes of columns where the matrix is extended */
    int in_reverse;             /* whether rows are to be in bit-reversed order */
    atomic_int all_codewords;
    atomic_size_t workers;
    atomic_uint status;
    struct phase phases[PHASES];
#ifndef _OPENMP
    pthread_mutex_t start;
    pthread_barrier_t barrier;
#endif
};

__extension__ typedef unsigned __int128 product;

static uint64_t times(uint64_t a, uint64_t b, uint64_t modulus) { return (uint64_t)((product)a * b % modulus); }

static uint64_t power(uint64_t a, uint64_t exponent, uint64_t modulus) {
    uint64_t result = 1;
    for (; exponent > 0; exponent >>= 1, a = times(a, a, modulus))
        if (exponent & 1) result = times(result, a, modulus);
    return result;
}

static size_t log_of(size_t power_of_two) {
    size_t bits = 0;
    while (power_of_two >> bits > 1) bits++;
    return bits;
}

static size_t reversed(size_t index, size_t bits) {
    size_t result = 0;
    for (; bits > 0; bits--, index >>= 1) result = result << 1 | (index & 1);
    return result;
}

/* The number that has the digits of the next one in reverse, from that of one. */
static size_t next_reversed(size_t reversed, size_t bits) {
    size_t bit = (size_t)1 << bits >> 1;
    for (; reversed & bit; bit >>= 1) reversed ^= bit;
    return reversed | bit;
}

static size_t min(size_t a, size_t b) { return a < b ? a : b; }
static size_t max(size_t a, size_t b) { return a > b ? a : b; }
static size_t quotient_up(size_t a, size_t b) { return a / b + (a % b != 0); }

/* Copies count runs of so many bytes, which lie so many bytes apart. Of short runs the compiler sees the length. */
static void copy_runs(char *to, size_t to_step, const char *from, size_t from_step, size_t count, size_t bytes) {
    switch (bytes) {
    case 4:
        for (size_t i = 0; i < count; i++) memcpy(to + i * to_step, from + i * from_step, 4);
        break;
    case 8:
        for (size_t i = 0; i < count; i++) memcpy(to + i * to_step, from + i * from_step, 8);
        break;
    case LINE:
        for (size_t i = 0; i < count; i++) memcpy(to + i * to_step, from + i * from_step, LINE);
        break;
    default:
        for (size_t i = 0; i < count; i++) memcpy(to + i * to_step, from + i * from_step, bytes);
    }
}

/* Copies 2^bits runs, which lie so many bytes apart, to their places in bit-reversed order. */
static void copy_in_reverse(char *to, const char *from, size_t from_step, size_t bits, size_t bytes) {
    size_t place = 0;
    switch (bytes) {
    case 4:
        for (size_t i = 0; i >> bits == 0; i++, place = next_reversed(place, bits))
            memcpy(to + place * 4, from + i * from_step, 4);
        break;
    case 8:
        for (size_t i = 0; i >> bits == 0; i++, place = next_reversed(place, bits))
            memcpy(to + place * 8, from + i * from_step, 8);
        break;
    default:
        for (size_t i = 0; i >> bits == 0; i++, place = next_reversed(place, bits))
            memcpy(to + place * bytes, from + i * from_step, bytes);
    }
}

/* Turns a matrix of so many rows and columns, in blocks that the cache holds. */
#define TURN(WORD)                                                                                                     \
    static void turn_##WORD(WORD *to, const WORD *from, size_t rows, size_t columns) {                                 \
        for (size_t first = 0; first < columns; first += LINE / 4)                                                     \
            for (size_t i = 0; i < rows; i++)                                                                          \
                for (size_t j = first; j < min(first + LINE / 4, columns); j++)                                        \
                    to[j * rows + i] = from[i * columns + j];                                                          \
    }

TURN(uint32_t)
TURN(uint64_t)

static void turn(void *to, const void *from, size_t rows, size_t columns, size_t word) {
    if (word == sizeof(uint32_t)) turn_uint32_t(to, from, rows, columns);
    else turn_uint64_t(to, from, rows, columns);
}

/* The phases. */

/* The columns of the wide rows, some of them, go through the library in a block of their own. */
static uint32_t columns_in_place(struct job *job, size_t index, char *scratch) {
    const struct parts *parts = &job->parts;
    const struct call *call = job->call;
    const struct field *field = call->field;
    size_t first = index * parts->chunk, count = min(parts->chunk, parts->wide / field->word - first);
    size_t rows = (size_t)1 << parts->log_parts, bytes = count * field->word;
    /* Before the first phase has made wide rows, the caller's matrix is these. */
    const char *from = job->phases[0].task == columns_in_place ? call->words : job->first;
    copy_runs(scratch, bytes, from + first * field->word, parts->wide, rows, bytes);
    uint64_t shift = power(call->shift, parts->part_height, field->modulus);
    uint32_t status = job->by_columns(call->engine, scratch, rows * count, count, shift);
    if (status == LIKTROB_OK)
        copy_runs(job->first + first * field->word, parts->wide, scratch, bytes, rows, bytes);
    return status;
}

/* The same for an extension, from the first matrix to the second. */
static uint32_t columns_extended(struct job *job, size_t index, char *scratch) {
    const struct parts *parts = &job->parts;
    const struct call *call = job->call;
    const struct field *field = call->field;
    size_t first = index * parts->chunk, count = min(parts->chunk, parts->wide / field->word - first);
    size_t rows = (size_t)1 << parts->log_parts, out_rows = (size_t)1 << parts->log_out_parts;
    size_t bytes = count * field->word;
    char *out = scratch + rows * bytes;
    const char *from = job->phases[0].task == columns_extended ? call->words : job->first;
    copy_runs(scratch, bytes, from + first * field->word, parts->wide, rows, bytes);
    uint64_t shift = power(call->shift, parts->part_height, field->modulus);
    uint32_t status = job->by_extension(call->engine, scratch, rows * count, count, call->added_bits, shift, out,
                                        out_rows * count);
    if (status == LIKTROB_OK)
        copy_runs(job->second + first * field->word, parts->wide, out, bytes, out_rows, bytes);
    return status;
}

/* Whether the columns of the wide rows, some of them, are codewords. */
static uint32_t columns_tested(struct job *job, size_t index, char *scratch) {
    const struct parts *parts = &job->parts;
    const struct call *call = job->call;
    const struct field *field = call->field;
    size_t first = index * parts->chunk, count = min(parts->chunk, parts->wide / field->word - first);
    size_t rows = (size_t)1 << parts->log_parts, bytes = count * field->word;
    uint32_t answer = 0;
    copy_runs(scratch, bytes, job->first + first * field->word, parts->wide, rows, bytes);
    uint64_t shift = power(call->shift, parts->part_height, field->modulus);
    uint32_t status =
        field->is_codeword(call->engine, scratch, rows * count, count, call->added_bits, shift, &answer);
    if (status == LIKTROB_OK && answer == 0) atomic_store(&job->all_codewords, 0);
    return status;
}

/* Each wide row of a group through the library, by itself, on the coset of its own point. */
static uint32_t rows_by(struct job *job, transform_of *function, char *rows, size_t log_parts, uint64_t shift,
                        size_t index) {
    const struct parts *parts = &job->parts;
    const struct field *field = job->call->field;
    size_t bits = log_parts + parts->log_height - parts->log_parts, first = index * parts->group;
    for (size_t i = 0; i < parts->group; i++) {
        uint32_t status = function(job->call->engine, rows + i * parts->wide, parts->wide / field->word,
                                   job->call->width, field->point(bits, shift, first + i));
        if (status != LIKTROB_OK) return status;
    }
    return LIKTROB_OK;
}

/* The wide rows of a group as columns beside each other through the library, each on the coset of its own point. */
static uint32_t rows_by_columns(struct job *job, columns_of *function, char *columns, size_t log_parts, uint64_t shift,
                                size_t index) {
    const struct parts *parts = &job->parts;
    const struct field *field = job->call->field;
    size_t bits = log_parts + parts->log_height - parts->log_parts;
    return function(job->call->engine, columns, parts->group * parts->part_height, parts->group,
                    field->point(bits, shift, index * parts->group), field->point(bits, 1, 1));
}

/* Wide rows are made of the caller's values, whose wide row i is the rows i + R * j, and inverted. */
static uint32_t rows_inverted(struct job *job, size_t index, char *scratch) {
    const struct parts *parts = &job->parts;
    const struct call *call = job->call;
    const struct field *field = call->field;
    size_t rows = (size_t)1 << parts->log_parts, first = index * parts->group;
    const char *words = (const char *)call->words + first * parts->row;
    char *to = job->first + first * parts->wide;
    /* An extension is of values on the subgroup itself. */
    uint64_t shift = job->by_extension != NULL ? 1 : call->shift;
    if (parts->is_column) {
        size_t line = parts->group * parts->row;
        copy_runs(scratch, line, words, rows * parts->row, parts->part_height, line);
        uint32_t status = rows_by_columns(job, field->idft_columns, scratch, parts->log_parts, shift, index);
        if (status == LIKTROB_OK) turn(to, scratch, parts->part_height, parts->group, field->word);
        return status;
    }
    for (size_t j = 0; j < parts->part_height; j++)
        copy_runs(to + j * parts->row, parts->wide, words + j * rows * parts->row, parts->row, parts->group,
                  parts->row);
    return rows_by(job, field->idft, to, parts->log_parts, shift, index);
}

/* Wide rows are transformed to values. Where they are columns then, row j of a group is a piece of the answer. */
static uint32_t rows_transformed(struct job *job, size_t index, char *scratch) {
    const struct parts *parts = &job->parts;
    const struct field *field = job->call->field;
    size_t log_parts = parts->log_out_parts;
    uint64_t shift = job->call->shift;
    char *rows = job->second + index * parts->group * parts->wide;
    if (!parts->is_column) return rows_by(job, field->dft, rows, log_parts, shift, index);
    turn(scratch, rows, parts->group, parts->part_height, field->word);
    uint32_t status = rows_by_columns(job, field->dft_columns, scratch, log_parts, shift, index);
    if (status == LIKTROB_OK) memcpy(rows, scratch, parts->group * parts->wide);
    return status;
}

/* Values of a group go to their places in the answer. */
static uint32_t rows_placed(struct job *job, size_t index, char *scratch) {
    const struct parts *parts = &job->parts;
    size_t rows = (size_t)1 << parts->log_out_parts, first = index * parts->group;
    size_t log_part_height = parts->log_height - parts->log_parts;
    const char *values = job->second + first * parts->wide;
    /* From one wide row of the group to the next, and from one row of it to the next. */
    size_t next_part = parts->is_column ? parts->row : parts->wide;
    size_t next_row = parts->is_column ? parts->group * parts->row : parts->row;
    char *out = job->call->out;
    (void)scratch;
    for (size_t i = 0; job->in_reverse && i < parts->group; i++)
        copy_in_reverse(out + reversed(first + i, parts->log_out_parts) * parts->wide, values + i * next_part, next_row,
                        log_part_height, parts->row);
    if (!job->in_reverse && parts->is_column)
        copy_runs(out + first * parts->row, rows * parts->row, values, next_row, parts->part_height, next_row);
    for (size_t j = 0; !job->in_reverse && !parts->is_column && j < parts->part_height; j++)
        copy_runs(out + (first + j * rows) * parts->row, parts->row, values + j * parts->row, parts->wide,
                  parts->group, parts->row);
    return LIKTROB_OK;
}

/* Coefficients in wide rows are the answer as they lie. */
static uint32_t rows_copied(struct job *job, size_t index, char *scratch) {
    const struct parts *parts = &job->parts;
    size_t first = index * parts->group * parts->wide;
    (void)scratch;
    memcpy((char *)job->call->out + first, job->first + first, parts->group * parts->wide);
    return LIKTROB_OK;
}

/* The threads. */

static void meet(struct job *job) {
#ifdef _OPENMP
    (void)job;
#pragma omp barrier
#else
    pthread_barrier_wait(&job->barrier);
#endif
}

/* What each thread does. After a fault the threads go through the phases without a task. */
static void work(struct job *job) {
    char *scratch = job->scratch + atomic_fetch_add(&job->workers, 1) * job->scratch_each;
    for (struct phase *phase = job->phases; phase < job->phases + PHASES && phase->task != NULL; phase++) {
        size_t index;
        while (atomic_load(&job->status) == LIKTROB_OK && (index = atomic_fetch_add(&phase->next, 1)) < phase->tasks) {
            uint32_t status = phase->task(job, index, scratch);
            if (status != LIKTROB_OK) atomic_store(&job->status, status);
        }
        meet(job);
    }
}

#ifdef _OPENMP

static void work_on_threads(struct job *job, size_t threads) {
#pragma omp parallel num_threads((int)threads)
    work(job);
}

#else

static void *started(void *given) {
    struct job *job = given;
    /* The barrier is there when all threads are. */
    pthread_mutex_lock(&job->start);
    pthread_mutex_unlock(&job->start);
    work(job);
    return NULL;
}

static void work_on_threads(struct job *job, size_t threads) {
    pthread_t *others = malloc((threads - 1) * sizeof *others);
    size_t count = 0, most = others != NULL ? threads - 1 : 0;
    sigset_t all, before;
    pthread_mutex_init(&job->start, NULL);
    pthread_mutex_lock(&job->start);
    /* Signals are for the threads that the caller has. */
    sigfillset(&all);
    pthread_sigmask(SIG_SETMASK, &all, &before);
    while (count < most && pthread_create(&others[count], NULL, started, job) == 0) count++;
    pthread_sigmask(SIG_SETMASK, &before, NULL);
    pthread_barrier_init(&job->barrier, NULL, (unsigned)count + 1);
    pthread_mutex_unlock(&job->start);
    work(job);
    while (count > 0) pthread_join(others[--count], NULL);
    pthread_barrier_destroy(&job->barrier);
    pthread_mutex_destroy(&job->start);
    free(others);
}

#endif

/* The calls. */

/* How many threads have work, or 1 where one call of the library is to answer: there is little work, or a fault of
 * which the library tells. */
static size_t threads_of(const struct call *call) {
    const struct field *field = call->field;
    if (call->engine > LIKTROB_RADIX_2_DFT_SMALL_BATCH || call->shift >= field->modulus || call->width == 0) return 1;
    size_t height = call->len / call->width;
    if (call->len % call->width != 0 || height < 4 || (height & (height - 1)) != 0) return 1;
    if (log_of(height) > field->two_adicity || call->added_bits > field->two_adicity - log_of(height)) return 1;
    if (call->out_len >> call->added_bits != call->len || call->out_len > SIZE_MAX / field->word) return 1;
    if (call->len << call->added_bits != call->out_len) return 1;
    size_t most = min(call->out_len * field->word / LIKTROB_PARALLEL_LEAST, MOST_THREADS);
    return max(min(call->threads, most), 1);
}

/* How the matrix is cut for so many threads: wide rows that the cache holds, but several for each thread. */
static struct parts parts_of(const struct call *call, size_t threads, size_t least_log_parts) {
    struct parts parts;
    size_t word = call->field->word;
    parts.row = call->width * word;
    parts.is_column = call->width == 1;
    /* A line of a group at most, how many bytes the group may have, and how many groups there are at least. */
    size_t line = parts.is_column ? LANES : LINE, task = parts.is_column ? 2 * TASK : TASK;
    size_t groups = parts.is_column ? 4 * threads : threads;
    parts.log_height = log_of(call->len / call->width);
    parts.log_parts = max(least_log_parts, 1);
    while (parts.log_parts + 1 < parts.log_height &&
           ((size_t)1 << parts.log_parts < 4 * threads || min(parts.row, LINE) << parts.log_parts < groups * LINE ||
            max(parts.row, line) > task >> (parts.log_height - parts.log_parts)))
        parts.log_parts++;
    parts.log_out_parts = parts.log_parts + call->added_bits;
    parts.part_height = (size_t)1 << (parts.log_height - parts.log_parts);
    parts.wide = parts.row * parts.part_height;
    parts.group = 1;
    while (parts.group >> parts.log_parts == 0 &&
           (parts.group * parts.row < LINE ||
            (parts.group * parts.row < line && 2 * parts.group * groups <= (size_t)1 << parts.log_parts)))
        parts.group *= 2;
    parts.group = min(parts.group, (size_t)1 << parts.log_parts);
    size_t most = max((size_t)TASK >> parts.log_out_parts, LINE), share = quotient_up(parts.wide, 4 * threads);
    parts.chunk = min(max(min(most, share) / LINE * LINE, LINE), parts.wide) / word;
    return parts;
}

static int are_below(const struct call *call) {
    const uint32_t *words = call->words;
    const uint64_t *long_words = call->words;
    for (size_t i = 0; i < call->len; i++)
        if ((call->field->word == sizeof *words ? words[i] : long_words[i]) >= call->field->modulus) return 0;
    return 1;
}

static void add_phase(struct job *job, task_of *task, size_t tasks) {
    struct phase *phase = job->phases;
    while (phase->task != NULL) phase++;
    phase->task = task;
    phase->tasks = tasks;
}

/* Does the phases of a job with a matrix of the input's size, and one of the output's where the two are not one.
 * Answers 0 where memory for these is refused and nothing was done. */
static int is_done(struct job *job, size_t threads, int has_two) {
    const struct parts *parts = &job->parts;
    size_t word = job->call->field->word;
    size_t rows = ((size_t)1 << parts->log_parts) + (has_two ? (size_t)1 << parts->log_out_parts : 0);
    size_t of_group = parts->is_column ? parts->group * parts->wide : 0;
    job->scratch_each = (max(rows * parts->chunk * word, of_group) + LINE - 1) / LINE * LINE;
    job->first = malloc(job->call->len * word);
    job->second = has_two ? malloc(job->call->out_len * word) : job->first;
    job->scratch = malloc(threads * job->scratch_each);
    int is_there = job->first != NULL && job->second != NULL && job->scratch != NULL;
    if (is_there) work_on_threads(job, threads);
    free(job->scratch);
    if (has_two) free(job->second);
    free(job->first);
    return is_there;
}

/* The status of a job that is done. A number that is too large comes before memory that is refused. */
static uint32_t status_of(struct job *job) {
    uint32_t status = atomic_load(&job->status);
    return status == LIKTROB_MEMORY && !are_below(job->call) ? LIKTROB_NUMBER : status;
}

static size_t groups_of(const struct parts *parts, size_t log_parts) {
    return ((size_t)1 << log_parts) / parts->group;
}

static size_t chunks_of(const struct parts *parts, size_t word) {
    return quotient_up(parts->wide / word, parts->chunk);
}

static uint32_t dft(const struct call *call) {
    const struct field *field = call->field;
    size_t threads = threads_of(call);
    struct job job = {.call = call, .by_columns = field->dft};
    if (threads > 1) {
        job.parts = parts_of(call, threads, 1);
        add_phase(&job, columns_in_place, chunks_of(&job.parts, field->word));
        add_phase(&job, rows_transformed, groups_of(&job.parts, job.parts.log_parts));
        add_phase(&job, rows_placed, groups_of(&job.parts, job.parts.log_parts));
        if (is_done(&job, threads, 0)) return status_of(&job);
    }
    return field->dft(call->engine, call->out, call->len, call->width, call->shift);
}

static uint32_t idft(const struct call *call) {
    const struct field *field = call->field;
    size_t threads = call->shift == 0 ? 1 : threads_of(call);
    struct job job = {.call = call, .by_columns = field->idft};
    if (threads > 1) {
        job.parts = parts_of(call, threads, 1);
        add_phase(&job, rows_inverted, groups_of(&job.parts, job.parts.log_parts));
        add_phase(&job, columns_in_place, chunks_of(&job.parts, field->word));
        add_phase(&job, rows_copied, groups_of(&job.parts, job.parts.log_parts));
        if (is_done(&job, threads, 0)) return status_of(&job);
    }
    return field->idft(call->engine, call->out, call->len, call->width, call->shift);
}

static uint32_t extension(const struct call *call, extension_of *whole, int of_values, int in_reverse) {
    const struct field *field = call->field;
    size_t threads = threads_of(call);
    struct job job = {.call = call,
                      .by_extension = of_values ? field->lde : field->padded,
                      .in_reverse = in_reverse};
    if (threads > 1) {
        job.parts = parts_of(call, threads, 1);
        if (of_values) add_phase(&job, rows_inverted, groups_of(&job.parts, job.parts.log_parts));
        add_phase(&job, columns_extended, chunks_of(&job.parts, field->word));
        add_phase(&job, rows_transformed, groups_of(&job.parts, job.parts.log_out_parts));
        add_phase(&job, rows_placed, groups_of(&job.parts, job.parts.log_out_parts));
        if (is_done(&job, threads, 1)) return status_of(&job);
    }
    return whole(call->engine, call->words, call->len, call->width, call->added_bits, call->shift, call->out,
                 call->out_len);
}

/* The last coefficients are zero where whole wide rows of them are: there are at least as many as are to vanish. */
static uint32_t is_codeword(const struct call *call, uint32_t *answer) {
    const struct field *field = call->field;
    struct call shape = *call;
    shape.added_bits = 0;
    size_t threads = call->shift == 0 ? 1 : threads_of(&shape);
    struct job job = {.call = call};
    atomic_init(&job.all_codewords, 1);
    if (threads > 1 && call->added_bits < log_of(call->len / call->width)) {
        job.parts = parts_of(&shape, threads, call->added_bits);
        add_phase(&job, rows_inverted, groups_of(&job.parts, job.parts.log_parts));
        add_phase(&job, columns_tested, chunks_of(&job.parts, field->word));
        if (is_done(&job, threads, 0)) {
            uint32_t status = status_of(&job);
            if (status == LIKTROB_OK) *answer = (uint32_t)atomic_load(&job.all_codewords);
            return status;
        }
    }
    return field->is_codeword(call->engine, call->words, call->len, call->width, call->added_bits, call->shift, answer);
}

#define EXTENSION(FIELD, WORD, CALL)                                                                                   \
    static uint32_t FIELD##_##CALL(uint32_t engine, const void *words, size_t len, size_t width, size_t added_bits,    \
                                   uint64_t shift, void *out, size_t out_len) {                                        \
        return liktrob_##FIELD##_##CALL(engine, words, len, width, added_bits, (WORD)shift, out, out_len);             \
    }

#define FIELD(FIELD, WORD, MODULUS, TWO_ADICITY)                                                                       \
    static uint32_t FIELD##_dft(uint32_t engine, void *words, size_t len, size_t width, uint64_t shift) {              \
        return liktrob_##FIELD##_coset_dft(engine, words, len, width, (WORD)shift);                                    \
    }                                                                                                                  \
    static uint32_t FIELD##_idft(uint32_t engine, void *words, size_t len, size_t width, uint64_t shift) {             \
        return liktrob_##FIELD##_coset_idft(engine, words, len, width, (WORD)shift);                                   \
    }                                                                                                                  \
    static uint32_t FIELD##_dft_columns(uint32_t engine, void *words, size_t len, size_t width, uint64_t shift,        \
                                        uint64_t step) {                                                               \
        return liktrob_##FIELD##_coset_dft_columns(engine, words, len, width, (WORD)shift, (WORD)step);                \
    }                                                                                                                  \
    static uint32_t FIELD##_idft_columns(uint32_t engine, void *words, size_t len, size_t width, uint64_t shift,       \
                                         uint64_t step) {                                                              \
        return liktrob_##FIELD##_coset_idft_columns(engine, words, len, width, (WORD)shift, (WORD)step);               \
    }                                                                                                                  \
    EXTENSION(FIELD, WORD, coset_lde)                                                                                  \
    EXTENSION(FIELD, WORD, coset_lde_bit_reversed)                                                                     \
    EXTENSION(FIELD, WORD, coset_dft_padded)                                                                           \
    static uint32_t FIELD##_is_codeword(uint32_t engine, const void *words, size_t len, size_t width,                  \
                                        size_t added_bits, uint64_t shift, uint32_t *answer) {                         \
        return liktrob_##FIELD##_is_codeword(engine, words, len, width, added_bits, (WORD)shift, answer);              \
    }                                                                                                                  \
    /* Of a shift below the modulus, and bits that the field has: there is a point. */                                 \
    static uint64_t FIELD##_point(size_t bits, uint64_t shift, size_t index) {                                         \
        WORD answer = 0;                                                                                               \
        liktrob_##FIELD##_point(bits, (WORD)shift, index, &answer);                                                    \
        return answer;                                                                                                 \
    }                                                                                                                  \
    static const struct field FIELD = {MODULUS,                                                                        \
                                       TWO_ADICITY,                                                                    \
                                       sizeof(WORD),                                                                   \
                                       FIELD##_dft,                                                                    \
                                       FIELD##_idft,                                                                   \
                                       FIELD##_dft_columns,                                                            \
                                       FIELD##_idft_columns,                                                           \
                                       FIELD##_coset_lde,                                                              \
                                       FIELD##_coset_lde_bit_reversed,                                                 \
                                       FIELD##_coset_dft_padded,                                                       \
                                       FIELD##_is_codeword,                                                            \
                                       FIELD##_point};                                                                 \
                                                                                                                       \
    uint32_t liktrob_parallel_##FIELD##_coset_dft(uint32_t engine, WORD *words, size_t len, size_t width, WORD shift,  \
                                                  size_t threads) {                                                    \
        const struct call call = {&FIELD, engine, words, len, width, 0, shift, words, len, threads};                   \
        return dft(&call);                                                                                             \
    }                                                                                                                  \
    uint32_t liktrob_parallel_##FIELD##_coset_idft(uint32_t engine, WORD *words, size_t len, size_t width, WORD shift, \
                                                   size_t threads) {                                                   \
        const struct call call = {&FIELD, engine, words, len, width, 0, shift, words, len, threads};                   \
        return idft(&call);                                                                                            \
    }                                                                                                                  \
    uint32_t liktrob_parallel_##FIELD##_coset_lde(uint32_t engine, const WORD *words, size_t len, size_t width,        \
                                                  size_t added_bits, WORD shift, WORD *out, size_t out_len,            \
                                                  size_t threads) {                                                    \
        const struct call call = {&FIELD, engine, words, len, width, added_bits, shift, out, out_len, threads};        \
        return extension(&call, FIELD.lde, 1, 0);                                                                      \
    }                                                                                                                  \
    uint32_t liktrob_parallel_##FIELD##_coset_lde_bit_reversed(uint32_t engine, const WORD *words, size_t len,         \
                                                               size_t width, size_t added_bits, WORD shift, WORD *out, \
                                                               size_t out_len, size_t threads) {                       \
        const struct call call = {&FIELD, engine, words, len, width, added_bits, shift, out, out_len, threads};        \
        return extension(&call, FIELD.lde_bit_reversed, 1, 1);                                                         \
    }                                                                                                                  \
    uint32_t liktrob_parallel_##FIELD##_coset_dft_padded(uint32_t engine, const WORD *words, size_t len, size_t width, \
                                                         size_t added_bits, WORD shift, WORD *out, size_t out_len,     \
                                                         size_t threads) {                                             \
        const struct call call = {&FIELD, engine, words, len, width, added_bits, shift, out, out_len, threads};        \
        return extension(&call, FIELD.padded, 0, 0);                                                                   \
    }                                                                                                                  \
    uint32_t liktrob_parallel_##FIELD##_is_codeword(uint32_t engine, const WORD *words, size_t len, size_t width,      \
                                                    size_t added_bits, WORD shift, uint32_t *answer, size_t threads) { \
        const struct call call = {&FIELD, engine, words, len, width, added_bits, shift, NULL, len, threads};           \
        return is_codeword(&call, answer);                                                                             \
    }

FIELD(baby_bear, uint32_t, LIKTROB_BABY_BEAR_MODULUS, 27)
FIELD(koala_bear, uint32_t, LIKTROB_KOALA_BEAR_MODULUS, 24)
FIELD(goldilocks, uint64_t, LIKTROB_GOLDILOCKS_MODULUS, 32)
