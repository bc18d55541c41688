/* Refuses each request for memory of each call in turn, on each engine.
 *
 * The n-th request is refused, for each n that the call makes, and then all requests from the n-th on. Each time the
 * status must be LIKTROB_MEMORY with nothing changed, or, where the call bears it, LIKTROB_OK with the answer; and no
 * block may be left behind.
 *
 *     cc refused.c libliktrob.a -Wl,--wrap=malloc,--wrap=realloc,--wrap=free
 *
 * With -DPARALLEL the calls are those of liktrob_parallel.h, on three threads.
 */
#include <stdio.h>
#include <stdlib.h>
#include <string.h>

#ifdef PARALLEL
#include "liktrob_parallel.h"
#define LIKTROB(FIELD, NAME, ...) liktrob_parallel_##FIELD##_##NAME(__VA_ARGS__, 3)
enum { CALLS = 6 };
#else
#include "liktrob.h"
#define LIKTROB(FIELD, NAME, ...) liktrob_##FIELD##_##NAME(__VA_ARGS__)
enum { CALLS = 8 };
#endif

void *__real_malloc(size_t n);
void *__real_realloc(void *block, size_t n);
void __real_free(void *block);

/* Which requests are refused: those from first to last, counted from 0. */
static long first_refused, last_refused;
static long requests, refusals, open_blocks;

/* Threads may ask at the same time. */
static long add(long *count, int added) { return __atomic_fetch_add(count, added, __ATOMIC_SEQ_CST); }

static int is_refused(void) {
    long request = add(&requests, 1);
    int is = first_refused <= request && request <= last_refused;
    add(&refusals, is);
    return is;
}

void *__wrap_malloc(size_t n) {
    if (is_refused()) return NULL;
    add(&open_blocks, 1);
    return __real_malloc(n);
}

void *__wrap_realloc(void *block, size_t n) {
    if (is_refused()) return NULL;
    add(&open_blocks, block == NULL);
    return __real_realloc(block, n);
}

void __wrap_free(void *block) {
    add(&open_blocks, -(block != NULL));
    __real_free(block);
}

enum { HEIGHT = 64, WIDEST = 4, ADDED = 2, NEVER = -1 };

/* A matrix, and the output of an extension of it. */
struct state {
    union {
        uint32_t as_uint32_t[HEIGHT * WIDEST];
        uint64_t as_uint64_t[HEIGHT * WIDEST];
    } words;
    union {
        uint32_t as_uint32_t[(HEIGHT * WIDEST) << ADDED];
        uint64_t as_uint64_t[(HEIGHT * WIDEST) << ADDED];
    } out;
    uint32_t answer;
};

static const char *const names[] = {"coset_dft",        "coset_idft",  "coset_lde",         "coset_lde_bit_reversed",
                                    "coset_dft_padded", "is_codeword", "coset_dft_columns", "coset_idft_columns"};

#define CALL(FIELD, WORD)                                                                                              \
    static uint32_t call_##FIELD(int call, uint32_t engine, size_t width, struct state *state) {                       \
        WORD *words = state->words.as_##WORD, *out = state->out.as_##WORD;                                             \
        size_t len = HEIGHT * width, out_len = len << ADDED;                                                           \
        switch (call) {                                                                                                \
        case 0: return LIKTROB(FIELD, coset_dft, engine, words, len, width, 31);                                       \
        case 1: return LIKTROB(FIELD, coset_idft, engine, words, len, width, 31);                                      \
        case 2: return LIKTROB(FIELD, coset_lde, engine, words, len, width, ADDED, 31, out, out_len);                  \
        case 3: return LIKTROB(FIELD, coset_lde_bit_reversed, engine, words, len, width, ADDED, 31, out, out_len);     \
        case 4: return LIKTROB(FIELD, coset_dft_padded, engine, words, len, width, ADDED, 31, out, out_len);           \
        case 5: return LIKTROB(FIELD, is_codeword, engine, words, len, width, ADDED, 31, &state->answer);              \
        case 6: return liktrob_##FIELD##_coset_dft_columns(engine, words, len, width, 31, 3);                          \
        default: return liktrob_##FIELD##_coset_idft_columns(engine, words, len, width, 31, 3);                        \
        }                                                                                                              \
    }                                                                                                                  \
                                                                                                                       \
    static void fill_##FIELD(struct state *state) {                                                                    \
        WORD *words = state->words.as_##WORD;                                                                          \
        memset(state, 0, sizeof *state);                                                                               \
        for (size_t i = 0; i < HEIGHT * WIDEST; i++) words[i] = (WORD)((uint32_t)i * 2654435761u % 2013265921u);       \
        memset(&state->out, 1, sizeof state->out);                                                                     \
        state->answer = 7;                                                                                             \
    }

CALL(baby_bear, uint32_t)
CALL(koala_bear, uint32_t)
CALL(goldilocks, uint64_t)

struct field {
    const char *name;
    uint32_t (*call)(int, uint32_t, size_t, struct state *);
    void (*fill)(struct state *);
};

static const struct field fields[] = {
    {"baby_bear", call_baby_bear, fill_baby_bear},
    {"koala_bear", call_koala_bear, fill_koala_bear},
    {"goldilocks", call_goldilocks, fill_goldilocks},
};

static struct state before, state, answered;
static long tried, borne, without;

/* The status of the call with these requests refused. */
static uint32_t refusing(const struct field *field, int call, uint32_t engine, size_t width, long first, long last) {
    field->fill(&state);
    requests = 0, refusals = 0, open_blocks = 0, first_refused = first, last_refused = last;
    uint32_t status = field->call(call, engine, width, &state);
    first_refused = last_refused = NEVER;
    return status;
}

/* What is wrong with the status and the buffers after some requests were refused. */
static const char *fault_of(uint32_t status) {
    if (open_blocks != 0) return "a block is left behind";
    if (status == LIKTROB_OK) return memcmp(&state, &answered, sizeof state) != 0 ? "another answer" : NULL;
    if (status != LIKTROB_MEMORY) return "another status";
    if (refusals == 0) return "a status of memory where none was refused";
    return memcmp(&state, &before, sizeof state) != 0 ? "a changed buffer" : NULL;
}

/* Whether each refusal of the call is answered as it must be. */
static int is_right(const struct field *field, int call, uint32_t engine, size_t width) {
    field->fill(&before);
    const char *fault = refusing(field, call, engine, width, NEVER, NEVER) != LIKTROB_OK ? "no answer" : NULL;
    long made = requests;
    answered = state;
    if (fault == NULL && open_blocks != 0) fault = "a block is left behind";
    without += made == 0;
    for (long n = 0; fault == NULL && n < 2 * made; n++) {
        long first = n / 2, last = n % 2 == 0 ? first : 1L << 40;
        uint32_t status = refusing(field, call, engine, width, first, last);
        fault = fault_of(status);
        tried++;
        borne += status == LIKTROB_OK;
    }
    if (fault != NULL) printf("%s %s, engine %u, width %zu: %s\n", field->name, names[call], engine, width, fault);
    return fault == NULL;
}

int main(void) {
    int wrong = 0;
    first_refused = last_refused = NEVER;
    for (size_t field = 0; field < sizeof fields / sizeof *fields; field++)
        for (int call = 0; call < CALLS; call++)
            for (uint32_t engine = LIKTROB_DEFAULT; engine <= LIKTROB_RADIX_2_DFT_SMALL_BATCH; engine++)
                for (size_t width = 1; width <= WIDEST; width += 3)
                    wrong += !is_right(&fields[field], call, engine, width);
    printf("%ld refusals, %ld answered all the same, %ld calls that ask for no memory, %d calls wrong\n", tried, borne,
           without, wrong);
    return wrong != 0 || tried == 0;
}
