#!/usr/bin/env python3
"""Values at points off cosets, inverses, and inverses of vanishing polynomials, for the tables of `src/tests.rt`.

    python3 vectors/interpolation.py      prints the tables; `rt fmt` lays them out

Entry n of a matrix of values is the element of the number `n * n + seed`. The polynomial of a column is interpolated by
Lagrange's formula, term by term in Python's whole numbers, and then has its value at the point.
"""

# the modulus, the root of the largest two-power order, that order's logarithm, the generator
FIELDS = {
    "BABY_BEAR": (2013265921, 440564289, 27, 31),
    "KOALA_BEAR": (2130706433, 1791270792, 24, 3),
    "GOLDILOCKS": (18446744069414584321, 1753635133440165772, 32, 7),
}
# the logarithm of the height, the width, whether the coset is that of one
SHAPES = [(0, 1, 0), (0, 3, 0), (1, 1, 1), (1, 9, 0), (2, 2, 1), (2, 17, 0), (3, 1, 0), (3, 5, 1), (4, 2, 0), (5, 3, 0)]
# the logarithm of the subgroup's order, the added bits
COSETS = [(0, 0), (0, 1), (1, 0), (1, 1), (0, 3), (2, 2), (3, 1), (5, 2), (8, 3), (20, 1)]
ELEMENTS = [1, 2, 3, 7, 10, 65537, 1 << 20, 1000000007, (1 << 30) - 1, 12345]


def root(field, bits):
    p, top, two_adicity, _ = FIELDS[field]
    return pow(top, 1 << (two_adicity - bits), p)


def value(p, xs, ys, x):
    total = 0
    for i, y in enumerate(ys):
        above, below = y, 1
        for j, z in enumerate(xs):
            if j != i:
                above, below = above * (x - z) % p, below * (xs[i] - z) % p
        total += above * pow(below, -1, p)
    return total % p


def openings(field):
    p, _, _, generator = FIELDS[field]
    for number, (bits, width, is_subgroup) in enumerate(SHAPES):
        seed, point = 3 * number + 1, p - 1000 * number - 5
        shift = 1 if is_subgroup else pow(generator, number + 1, p)
        xs = [shift * pow(root(field, bits), i, p) % p for i in range(1 << bits)]
        assert point not in xs
        columns = [[((i * width + j) ** 2 + seed) % p for i in range(1 << bits)] for j in range(width)]
        answers = [value(p, xs, ys, point) for ys in columns]
        yield f"Opening {{ height: {1 << bits}, seed: {seed}, shift: {shift}, point: {point}, values: &{answers} }}"


def vanishing(field):
    p, _, _, shift = FIELDS[field]
    for bits, added in COSETS:
        points = [shift * pow(root(field, bits + added), i, p) for i in range(1 << added)]
        inverses = [pow(pow(x, 1 << bits, p) - 1, -1, p) for x in points]
        yield f"Vanishing {{ log_height: {bits}, added_bits: {added}, inverses: &{inverses} }}"


def main():
    for field, (p, _, _, _) in FIELDS.items():
        print(f"const {field}: Table<'static> = Table {{ openings: &[{', '.join(openings(field))}],")
        print(f"vanishing: &[{', '.join(vanishing(field))}],")
        print(f"inverses: &[{', '.join(f'({x}, {pow(x, -1, p)})' for x in ELEMENTS)}] }};")


main()
