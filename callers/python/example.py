"""Prints the values at 1 and -1 of the polynomials 5 + 4x, 2 + 3x and 0 over BabyBear, one in each column."""

import liktrob

words = liktrob.baby_bear.array([5, 2, 0, 4, 3, 0])
liktrob.baby_bear.dft(words, width=3)
for row in range(0, 6, 3):
    print(*words[row:row + 3])
