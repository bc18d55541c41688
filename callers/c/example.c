/* Prints the values at 1 and -1 of the polynomials 5 + 4x, 2 + 3x and 0 over BabyBear, one in each column:
 *
 *     9 5 0
 *     1 2013265920 0
 */
#include <inttypes.h>
#include <stdio.h>

#include "liktrob.h"

int main(void) {
    uint32_t words[6] = {5, 2, 0, 4, 3, 0};
    if (liktrob_baby_bear_coset_dft(LIKTROB_DEFAULT, words, 6, 3, 1) != LIKTROB_OK) return 1;
    for (int i = 0; i < 6; i++) printf("%" PRIu32 "%c", words[i], i % 3 == 2 ? '\n' : ' ');
    return 0;
}
