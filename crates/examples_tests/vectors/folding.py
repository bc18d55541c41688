#!/usr/bin/env python3
"""The foldings against which `src/tests/folding.rt` holds the client of `examples`.

    python3 vectors/folding.py      prints the lines of its two tests; `rt fmt` lays them out

Each is worked out from the coefficients, by Python's whole numbers: those of the values on the coset, coefficient by
coefficient `c_(2j) + beta * c_(2j+1)`, and the values of these on the coset of the squared shift. The values handed
over are those of `sample`: each is 1664525 times the one before plus one, the first from the seed.
"""

FIELDS = {
    "BabyBear": (2013265921, 440564289, 27),
    "Goldilocks": (18446744069414584321, 1753635133440165772, 32),
}
# the logarithm of the height, the width, the challenge (a negative one from the modulus down)
SHAPES = [
    (1, 1, 5), (1, 3, 0), (2, 1, 1), (2, 2, 77), (3, 1, 1234567), (3, 3, -1), (4, 1, 2), (4, 2, 0), (5, 1, 31),
    (6, 1, 999),
]


def reverse(i, bits):
    return int(format(i, f"0{bits}b")[::-1], 2) if bits else 0


def root(field, bits):
    modulus, top, two_adicity = FIELDS[field]
    return pow(top, 1 << (two_adicity - bits), modulus)


def sample(modulus, count, seed):
    entries, entry = [], seed
    for _ in range(count):
        entry = (entry * 1664525 + 1) % modulus
        entries.append(entry)
    return entries


def coefficients(p, g, s, values):
    n = len(values)
    undo = pow(n, -1, p)
    return [
        sum(v * pow(s, -j, p) * pow(g, -i * j, p) for i, v in enumerate(values)) * undo % p
        for j in range(n)
    ]


def value(p, cs, x):
    return sum(c * pow(x, j, p) for j, c in enumerate(cs)) % p


def folded(field, bits, width, seed, shift, beta, is_reversed):
    p = FIELDS[field][0]
    entries = sample(p, width << bits, seed)
    order = [reverse(i, bits) if is_reversed else i for i in range(1 << bits)]
    half = [reverse(i, bits - 1) if is_reversed else i for i in range(1 << (bits - 1))]
    out = [[0] * width for _ in half]
    for column in range(width):
        values = [entries[order[i] * width + column] for i in range(1 << bits)]
        cs = coefficients(p, root(field, bits), shift, values)
        fs = [(cs[2 * j] + beta * cs[2 * j + 1]) % p for j in range(len(cs) // 2)]
        for i in range(len(fs)):
            x = shift * shift * pow(root(field, bits - 1), i, p) % p
            out[half[i]][column] = value(p, fs, x)
    return [entry for row in out for entry in row]


def main():
    for field, (p, _, _) in FIELDS.items():
        for number, (bits, width, beta) in enumerate(SHAPES):
            is_reversed = (number + (field == "Goldilocks")) % 2 == 1
            layout = "BitReversed" if is_reversed else "Natural"
            seed, shift = number + 1, number + 3
            out = folded(field, bits, width, seed, shift, beta % p, is_reversed)
            print(f"assert_folding::<{field}>(rt, alloc, ({1 << bits}, {width}, {seed}), Layout::{layout}, "
                  f"({shift}, {beta % p}), &{out});")


if __name__ == "__main__":
    main()
