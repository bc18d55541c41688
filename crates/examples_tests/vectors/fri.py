#!/usr/bin/env python3
"""The commitments against which `src/tests/fri.rt` holds `commit`, `open` and `check` of `examples`.

    python3 vectors/fri.py      prints the table of its tests; `rt fmt` lays it out

A codeword is that of `sample`, with its rows in bit reversed order. Each layer is folded from its coefficients, as in
`folding.py`. A leaf is the digest of a pair of rows, and a challenge is 31 times the one before plus the root, from
zero on; digests are those of `HornerHash` by the base 7. From the last challenge on each entry of the last codeword is
taken in by the same rule, and then a one for each query: its number is the sum modulo the number of pairs.
"""

from folding import FIELDS, coefficients, reverse, root, sample, value

BASE, FACTOR, QUERIES = 7, 31, 3
# the logarithm of the height, the width, the shift, how often it is folded
SHAPES = [(3, 1, 3, 3), (4, 2, 5, 2), (5, 1, 1, 4)]


def digest(p, row):
    out = 0
    for x in row:
        out = (out * BASE + x) % p
    return out


def tree(p, digests):
    while len(digests) > 1:
        digests = [digest(p, digests[i:i + 2]) for i in range(0, len(digests), 2)]
    return digests[0]


def folded(field, bits, width, shift, beta, entries):
    p = FIELDS[field][0]
    out = [[0] * width for _ in range(1 << (bits - 1))]
    for column in range(width):
        values = [entries[reverse(i, bits) * width + column] for i in range(1 << bits)]
        cs = coefficients(p, root(field, bits), shift, values)
        fs = [(cs[2 * j] + beta * cs[2 * j + 1]) % p for j in range(len(cs) // 2)]
        for i in range(len(out)):
            x = shift * shift * pow(root(field, bits - 1), i, p) % p
            out[reverse(i, bits - 1)][column] = value(p, fs, x)
    return [x for row in out for x in row]


def case(field, number, log_height, width, shift, folds):
    p = FIELDS[field][0]
    seed = number + 1
    entries, challenge, roots, challenges, codewords = sample(p, width << log_height, seed), 0, [], [], []
    for fold in range(folds):
        bits = log_height - fold
        pairs = [entries[2 * i * width:2 * (i + 1) * width] for i in range(1 << (bits - 1))]
        roots.append(tree(p, [digest(p, pair) for pair in pairs]))
        challenge = (challenge * FACTOR + roots[-1]) % p
        challenges.append(challenge)
        entries = folded(field, bits, width, pow(shift, 1 << fold, p), challenge, entries)
        codewords.append(entries)
    state, numbers = challenge, []
    for entry in entries:
        state = (state * FACTOR + entry) % p
    for _query in range(QUERIES):
        state = (state * FACTOR + 1) % p
        numbers.append(state % (1 << (log_height - 1)))
    layers = ", ".join(f"&{c}" for c in codewords)
    return (f"Case {{ log_height: {log_height}, width: {width}, seed: {seed}, shift: {shift}, roots: &{roots}, "
            f"challenges: &{challenges}, numbers: {numbers}, folded: &[{layers}] }}")


def main():
    words = {"BabyBear": "BABY_BEAR", "Goldilocks": "GOLDILOCKS"}
    for field in FIELDS:
        cases = [case(field, number, *shape) for number, shape in enumerate(SHAPES)]
        print(f"const OVER_{words[field]}: [Case; {len(cases)}] = [{', '.join(cases)}];")


if __name__ == "__main__":
    main()
