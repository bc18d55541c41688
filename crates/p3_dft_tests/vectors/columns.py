#!/usr/bin/env python3
"""The tables of `src/tests/columns.rt`: values of columns' polynomials, each on a coset of its own.

    python3 vectors/columns.py      prints the tables

The coefficients are the numbers from one on, row after row. Row i of column j has the value of the column's polynomial
at `shift * step^j * g^i`, term by term by Python's whole numbers.
"""

import textwrap

# the modulus, the root of the largest two-power order, that order's logarithm, the generator
FIELDS = {
    "BABY_BEAR": (2013265921, 440564289, 27, 31),
    "KOALA_BEAR": (2130706433, 1791270792, 24, 3),
    "GOLDILOCKS": (18446744069414584321, 1753635133440165772, 32, 7),
}
# the logarithm of the height, the width; the shift and the step: "g" is the generator, "-g" its negative, "r" a root
# of order eight times the height
SHAPES = [
    (0, 1, 5, 0),
    (0, 9, "g", 3),
    (1, 1, "g", 0),
    (1, 3, 5, "r"),
    (1, 9, "-g", "g"),
    (3, 1, "g", 11),
    (3, 3, "g", "r"),
    (3, 9, 5, "-g"),
    (1, 3, "g", 0),
    (1, 3, 0, 5),
]


def root(field, bits):
    modulus, top, two_adicity, _ = FIELDS[field]
    return pow(top, 1 << (two_adicity - bits), modulus)


def element(field, bits, word):
    modulus, _, _, generator = FIELDS[field]
    return {"g": generator, "-g": modulus - generator, "r": root(field, bits + 3)}.get(word, word)


def case(field, bits, width, shift, step):
    modulus = FIELDS[field][0]
    shift, step = element(field, bits, shift), element(field, bits, step)
    values = []
    for i in range(1 << bits):
        for j in range(width):
            point = shift * pow(step, j) * pow(root(field, bits), i)
            values.append(sum((k * width + j + 1) * pow(point, k, modulus) for k in range(1 << bits)) % modulus)
    return f"{width} {shift} {step} | {' '.join(map(str, values))}"


def main():
    for field in FIELDS:
        cases = ";\n".join(
            textwrap.fill(case(field, *shape), 110, initial_indent=" " * 4, subsequent_indent=" " * 8)
            for shape in SHAPES
        )
        print(f'const OVER_{field}: &str = "\n{cases}";\n')


main()
