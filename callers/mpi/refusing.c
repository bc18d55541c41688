/* Refuses requests for memory of the program on one rank: those from the N-th on, where LIKTROB_REFUSED is 'RANK N'.
 * MPI asks by itself, and is refused nothing.
 *
 *     mpicc .. refusing.c -Wl,--wrap=malloc,--wrap=realloc
 */
#include <stdio.h>
#include <stdlib.h>
#include <string.h>

void *__real_malloc(size_t n);
void *__real_realloc(void *block, size_t n);

static int is_refused(void) {
    static long requests;
    const char *given = getenv("LIKTROB_REFUSED"), *rank = getenv("OMPI_COMM_WORLD_RANK");
    long first;
    char where[16];
    requests++;
    return given != NULL && rank != NULL && sscanf(given, "%15s %ld", where, &first) == 2 && strcmp(where, rank) == 0 &&
           requests > first;
}

void *__wrap_malloc(size_t n) { return is_refused() ? NULL : __real_malloc(n); }
void *__wrap_realloc(void *block, size_t n) { return is_refused() ? NULL : __real_realloc(block, n); }
