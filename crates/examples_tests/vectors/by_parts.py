#!/usr/bin/env python3
"""Values on cosets, against which `src/tests/by_parts.rt` holds the client of `examples` that makes them in parts.

    python3 vectors/by_parts.py      prints the tables of its test; `rt fmt` lays them out

Coefficients are those of `sample`, and each value is worked out by itself, as in `folding.py`.
"""

from folding import FIELDS, root, sample, value

# the logarithm of the height, the width
SHAPES = [(0, 1), (0, 4), (1, 1), (1, 3), (2, 1), (2, 5), (3, 1), (3, 2), (4, 1), (5, 1)]


def transforms(field):
    p = FIELDS[field][0]
    for number, (bits, width) in enumerate(SHAPES):
        seed, shift = number + 1, [1, 3, 31, p - 2][number % 4]
        entries = sample(p, width << bits, seed)
        points = [shift * pow(root(field, bits), i, p) % p for i in range(1 << bits)]
        values = [value(p, entries[j::width], x) for x in points for j in range(width)]
        yield f"Case {{ log_height: {bits}, width: {width}, seed: {seed}, shift: {shift}, values: &{values} }}"


def main():
    for field, name in (("BabyBear", "BABY_BEAR"), ("Goldilocks", "GOLDILOCKS")):
        print(f"const OVER_{name}: [Case; {len(SHAPES)}] = [{', '.join(transforms(field))}];")


if __name__ == "__main__":
    main()
