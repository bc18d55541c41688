/* Each call on each engine on a thread whose stack has 64 KiB, with a page below it that no call may touch; and how
 * much of the stack was used at most. Shapes are from one row to 2^20.
 */
#include <pthread.h>
#include <stdio.h>
#include <stdlib.h>
#include <string.h>
#include <sys/mman.h>

#include "liktrob.h"

enum { STACK = 1 << 16, PAGE = 1 << 12, ADDED = 1, CALLS = 9, UNUSED = 0xa5 };

struct shape {
    size_t height, width;
    uint32_t first_engine;
};

static const struct shape shapes[] = {
    {1, 1, 0}, {2, 3, 0}, {64, 5, 0}, {1 << 10, 1, 0}, {1 << 14, 16, 2}, {1 << 18, 1, 2}, {1 << 20, 1, 2},
};
enum { SHAPES = sizeof shapes / sizeof *shapes };

struct task {
    const struct shape *shape;
    int field, call;
    uint32_t engine, status, answer;
    void *words, *out;
    char *here;
};

#define CALL(FIELD, WORD)                                                                                              \
    static uint32_t call_##FIELD(struct task *t) {                                                                     \
        WORD *words = t->words, *out = t->out;                                                                         \
        size_t w = t->shape->width, len = t->shape->height * w, out_len = len << ADDED;                                \
        switch (t->call) {                                                                                             \
        case 0: return liktrob_##FIELD##_coset_dft(t->engine, words, len, w, 31);                                      \
        case 1: return liktrob_##FIELD##_coset_idft(t->engine, words, len, w, 31);                                     \
        case 2: return liktrob_##FIELD##_coset_lde(t->engine, words, len, w, ADDED, 31, out, out_len);                 \
        case 3: return liktrob_##FIELD##_coset_lde_bit_reversed(t->engine, words, len, w, ADDED, 31, out, out_len);    \
        case 4: return liktrob_##FIELD##_coset_dft_padded(t->engine, words, len, w, ADDED, 31, out, out_len);          \
        case 5: return liktrob_##FIELD##_is_codeword(t->engine, words, len, w, 0, 31, &t->answer);                     \
        case 6: return liktrob_##FIELD##_coset_dft_columns(t->engine, words, len, w, 31, 3);                           \
        case 7: return liktrob_##FIELD##_coset_idft_columns(t->engine, words, len, w, 31, 3);                          \
        default: return liktrob_##FIELD##_point(24, 31, len, out);                                                     \
        }                                                                                                              \
    }

CALL(baby_bear, uint32_t)
CALL(koala_bear, uint32_t)
CALL(goldilocks, uint64_t)

static void *run(void *given) {
    struct task *task = given;
    char here = 0;
    task->here = &here;
    task->status = task->field == 0 ? call_baby_bear(task) : task->field == 1 ? call_koala_bear(task)
                                                                              : call_goldilocks(task);
    return NULL;
}

int main(void) {
    char *block = mmap(NULL, STACK + PAGE, PROT_READ | PROT_WRITE, MAP_PRIVATE | MAP_ANONYMOUS, -1, 0);
    char *stack = block + PAGE;
    struct task task = {0};
    pthread_attr_t attributes;
    int calls = 0;
    long most = 0;
    task.words = calloc((size_t)1 << 21, sizeof(uint64_t));
    task.out = calloc((size_t)1 << 21, sizeof(uint64_t));
    if (block == MAP_FAILED || mprotect(block, PAGE, PROT_NONE) != 0) return 2;
    if (task.words == NULL || task.out == NULL) return 2;
    pthread_attr_init(&attributes);
    if (pthread_attr_setstack(&attributes, stack, STACK) != 0) return 2;
    for (int i = 0; i < SHAPES; i++)
        for (task.field = 0; task.field < 3; task.field++)
            for (task.call = 0; task.call < CALLS; task.call++)
                for (task.engine = shapes[i].first_engine; task.engine <= 5; task.engine++) {
                    pthread_t thread;
                    task.shape = &shapes[i];
                    memset(stack, UNUSED, STACK);
                    if (pthread_create(&thread, &attributes, run, &task) != 0) return 2;
                    pthread_join(thread, NULL);
                    if (task.status != LIKTROB_OK) return printf("status %u\n", task.status), 1;
                    const char *lowest = stack;
                    while ((unsigned char)*lowest == UNUSED) lowest++;
                    if (task.here - lowest > most) most = task.here - lowest;
                    calls++;
                }
    printf("%d calls, at most %ld bytes of stack\n", calls, most);
    return 0;
}
