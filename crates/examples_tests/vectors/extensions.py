#!/usr/bin/env python3
"""Products, inverses and foldings in extension fields, against which `src/tests/extensions.rt` holds `examples`.

    python3 vectors/extensions.py      prints the tables of its tests; `rt fmt` lays them out

An element is the list of its coefficients at x, and a product that of polynomials, in which x to the degree is w. An
inverse is the power `p^degree - 2`. A folding is worked out from the coefficients of the values, as in `folding.py`.
"""

from folding import FIELDS, coefficients, reverse, root, sample

EXTENSIONS = {"BabyBear": (4, 11), "Goldilocks": (2, 7)}
# the logarithm of the height, the width, and which challenge
SHAPES = [(1, 1, 2), (1, 3, 0), (2, 1, 1), (2, 2, 2), (3, 1, 2), (2, 3, 0), (3, 2, 1), (4, 1, 2), (3, 1, 0), (4, 1, 1)]


def add(p, a, b):
    return [(x + y) % p for x, y in zip(a, b)]


def times(p, w, a, b):
    d = len(a)
    out = [0] * d
    for i, x in enumerate(a):
        for j, y in enumerate(b):
            out[(i + j) % d] = (out[(i + j) % d] + x * y * (w if i + j >= d else 1)) % p
    return out


def power(p, w, a, n):
    out = [1] + [0] * (len(a) - 1)
    while n:
        if n & 1:
            out = times(p, w, out, a)
        a, n = times(p, w, a, a), n >> 1
    return out


def unit(d, i):
    return [int(j == i) for j in range(d)]


def embedded(d, a):
    return [a] + [0] * (d - 1)


def products(field):
    p = FIELDS[field][0]
    d, w = EXTENSIONS[field]
    some = sample(p, 4 * d, 9)
    lefts = [unit(d, 1), [1] * d, [p - 1] * d, some[:d], some[d:2 * d], embedded(d, 5)]
    rights = [unit(d, d - 1), unit(d, d - 1), [2] + [p - 3] * (d - 1), some[2 * d:3 * d], some[3 * d:], some[:d]]
    for left, right in zip(lefts, rights):
        inverse = power(p, w, left, p**d - 2)
        assert times(p, w, left, inverse) == unit(d, 0)
        yield f"Product {{ left: &{left}, right: &{right}, product: &{times(p, w, left, right)}, inverse: &{inverse} }}"


def foldings(field):
    p = FIELDS[field][0]
    d, w = EXTENSIONS[field]
    for number, (bits, width, which) in enumerate(SHAPES):
        is_reversed = (number + (field == "Goldilocks")) % 2 == 1
        seed, shift = number + 1, number + 3
        beta = [embedded(d, 0), embedded(d, 1), sample(p, d, number + 20)][which]
        entries = sample(p, width << bits, seed)
        order = [reverse(i, bits) if is_reversed else i for i in range(1 << bits)]
        half = 1 << (bits - 1)
        out = [[None] * width for _ in range(half)]
        last = [[None] * width for _ in range(half)]
        for column in range(width):
            values = [entries[order[i] * width + column] for i in range(1 << bits)]
            cs = coefficients(p, root(field, bits), shift, values)
            fs = [add(p, embedded(d, cs[2 * j]), times(p, w, beta, embedded(d, cs[2 * j + 1]))) for j in range(half)]
            for i in range(half):
                x = shift * shift * pow(root(field, bits - 1), i, p) % p
                value = [sum(f[t] * pow(x, j, p) for j, f in enumerate(fs)) % p for t in range(d)]
                out[reverse(i, bits - 1) if is_reversed else i][column] = value
                last[i][column] = fs[i]
        flat = [[c for row in rows for entry in row for c in entry] for rows in (out, last)]
        layout = "BitReversed" if is_reversed else "Natural"
        yield (f"Folding {{ shape: ({1 << bits}, {width}), seed: {seed}, layout: Layout::{layout}, shift: {shift}, "
               f"beta: &{beta}, values: &{flat[0]}, coefficients: &{flat[1]} }}")


def main():
    words = {"BabyBear": "BABY_BEAR", "Goldilocks": "GOLDILOCKS"}
    for field in EXTENSIONS:
        for name, rows in (("Product", list(products(field))), ("Folding", list(foldings(field)))):
            print(f"const {name.upper()}S_OVER_{words[field]}: [{name}; {len(rows)}] = [{', '.join(rows)}];")


if __name__ == "__main__":
    main()
