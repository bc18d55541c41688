#!/usr/bin/env python3
"""The extensions of coefficients among the answers of `src/tests/answers.rt`, and the columns of four and of five
coordinates in `src/tests/algebra.rt`.

    python3 vectors/coefficients.py      prints the numbers of each call; `rt fmt` lays them out

Row i of an answer has the values of the columns' polynomials at point i of the coset, `shift * g^i`, term by term by
Python's whole numbers.
"""

FIELDS = {
    "BabyBear": (2013265921, 440564289, 27),
    "Goldilocks": (18446744069414584321, 1753635133440165772, 32),
}
# the width, the coefficients row by row, the added bits, the shift
CALLS = [
    (1, [5, 4], 1, 2),
    (2, [1, 2, 3, 4, 5, 6, 7, 8], 1, 3),
    (3, [42, 7, 1], 1, 31),
    (1, [1, 2, 3, 4], 0, 3),
    (1, [5, 4], 2, 0),
]
# two elements, by the coordinates of their coefficients
COORDINATES = [
    (4, [1, 2, 3, 4, 5, 6, 7, 8]),
    (5, [1, 2, 3, 4, 5, 6, 7, 8, 9, 10]),
]


def extended(field, width, rows, added_bits, shift):
    modulus, top, two_adicity = FIELDS[field]
    height = len(rows) // width
    points = height << added_bits
    generator = pow(top, (1 << two_adicity) // points, modulus)
    xs = [shift * pow(generator, i, modulus) % modulus for i in range(points)]
    return [
        sum(rows[j * width + column] * pow(x, j, modulus) for j in range(height)) % modulus
        for x in xs
        for column in range(width)
    ]


def main():
    for field in FIELDS:
        for width, rows, added_bits, shift in CALLS:
            answer = extended(field, width, rows, added_bits, shift)
            print(f"{field}: {rows} in rows of {width}, by {added_bits} bits, shift {shift}: {answer}")
    for dimension, rows in COORDINATES:
        for added_bits, shift in [(0, 1), (0, 31), (1, 31)]:
            answer = extended("BabyBear", dimension, rows, added_bits, shift)
            print(f"dimension {dimension}: values of {rows} by {added_bits} bits, shift {shift}: {answer}")


main()
