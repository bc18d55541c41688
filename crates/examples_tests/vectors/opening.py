#!/usr/bin/env python3
"""Values at points of extension fields, against which `src/tests/opening.rt` holds the client of `examples`.

    python3 vectors/opening.py      prints the tables of its tests; `rt fmt` lays them out

A column's values are those of `sample`. Its coefficients are worked out from them as in `folding.py`, and their value
at the point by Horner's rule on coefficients of x, as in `extensions.py`: no weight is made.
"""

from extensions import EXTENSIONS, add, embedded, times, unit
from folding import FIELDS, coefficients, root, sample

# the logarithm of the height, the width, and which point: the root of the extension, one of the field below, or another
SHAPES = [(0, 1, 2), (0, 3, 0), (1, 1, 2), (1, 9, 1), (2, 2, 0), (2, 5, 2), (3, 1, 1), (3, 3, 2), (4, 2, 2), (5, 1, 2)]


def value(p, w, cs, x):
    out = embedded(len(x), 0)
    for c in reversed(cs):
        out = add(p, times(p, w, out, x), embedded(len(x), c))
    return out


def openings(field):
    p = FIELDS[field][0]
    d, w = EXTENSIONS[field]
    for number, (bits, width, which) in enumerate(SHAPES):
        seed, shift = number + 1, number + 3
        point = [unit(d, 1), embedded(d, p - 1000 - number), sample(p, d, number + 20)][which]
        coset = [embedded(d, shift * pow(root(field, bits), i, p) % p) for i in range(1 << bits)]
        assert point not in coset
        entries = sample(p, width << bits, seed)
        columns = [coefficients(p, root(field, bits), shift, entries[j::width]) for j in range(width)]
        for cs, values in zip(columns, (entries[j::width] for j in range(width))):
            assert [value(p, w, cs, x) for x in coset] == [embedded(d, v) for v in values]
        answers = [c for cs in columns for c in value(p, w, cs, point)]
        yield (f"Case {{ shape: ({1 << bits}, {width}), seed: {seed}, shift: {shift}, point: &{point}, "
               f"values: &{answers} }}")


def main():
    for field, name in (("BabyBear", "BABY_BEAR"), ("Goldilocks", "GOLDILOCKS")):
        print(f"const OVER_{name}: [Case; {len(SHAPES)}] = [{', '.join(openings(field))}];")


if __name__ == "__main__":
    main()
