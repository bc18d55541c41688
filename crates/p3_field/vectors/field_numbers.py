#!/usr/bin/env python3
"""The numbers against which `p3_matrix_tests` holds the fields.

    python3 ../p3_field/vectors/field_numbers.py > src/tests/vectors.rt && rt fmt

The rule: the remainders are those of Python's whole numbers, and an inverse is `pow(a, -1, p)`. The
operands are the extremes of a field and of the words that hold its numbers, each with itself and with
each one after it in the list: 0, 1, p - 1, (p - 1) / 2, for a field below 2^31 also 2^27, then 2^32 - 1,
2^32 and 2^63, which `from_usize` brings below p. A field below 2^31 has two more pairs, whose product by
Shoup's estimate does and does not need its correction; Goldilocks has two that make each of its rare ones.
The root of order 2^bits is the generator's power (p - 1) / 2^bits.
"""


class Field:
    def __init__(self, name, modulus, generator, bits):
        self.name = name
        self.modulus = modulus
        self.generator = generator
        self.bits = bits
        self.root = pow(generator, (modulus - 1) >> bits, modulus)
        assert pow(self.root, 1 << (bits - 1), modulus) == modulus - 1

    def is_small(self):
        return self.modulus < 2**31

    def extremes(self):
        p = self.modulus
        small = [2**27] if self.is_small() else []
        return [0, 1, p - 1, (p - 1) // 2] + small + [2**32 - 1, 2**32, 2**63]

    def shoup_rest(self, a, t):
        """a * t without the estimate of its quotient: below 2 p."""
        quotient = (t << 32) // self.modulus
        return a * t - (a * quotient >> 32) * self.modulus

    def more_pairs(self):
        p = self.modulus
        if not self.is_small():
            return [(2**48, 2**48), (2**32 - 1, 2**32 + 1)]
        downwards = [(a, pow(self.generator, 100, p)) for a in range(p - 2, p - 100, -1)]
        corrected = next(pair for pair in downwards if self.shoup_rest(*pair) >= p)
        left = next(pair for pair in downwards if self.shoup_rest(*pair) < p)
        return [corrected, left]

    def pairs(self):
        numbers = self.extremes()
        of_extremes = [(a, b) for i, a in enumerate(numbers) for b in numbers[i:]]
        return of_extremes + self.more_pairs()

    def invertible(self):
        return [1, 2, self.generator] + self.extremes()[2:]


FIELDS = [
    Field("BABY_BEAR", 2**31 - 2**27 + 1, 31, 27),
    Field("KOALA_BEAR", 2**31 - 2**24 + 1, 3, 24),
    Field("GOLDILOCKS", 2**64 - 2**32 + 1, 7, 32),
]


def table(what, name, kind, rows):
    print(f"\n// {what}\npub const {name}: [{kind}; {len(rows)}] = [")
    for row in rows:
        print(f"    ({', '.join(map(str, row))}),")
    print("];")


print("// Sums, differences, products, inverses, powers and roots, computed by p3_field/vectors/field_numbers.py.")
for field in FIELDS:
    p = field.modulus
    operations = [(a, b, (a + b) % p, (a - b) % p, a * b % p) for a, b in field.pairs()]
    table(
        "Two numbers, their sum, their difference and their product.",
        field.name,
        "(usize, usize, u64, u64, u64)",
        operations,
    )
    inverses = [(a, pow(a, -1, p)) for a in field.invertible()]
    table("A number and its inverse.", field.name + "_INVERSES", "(usize, u64)", inverses)
    roots = [(bits, pow(field.root, 1 << (field.bits - bits), p)) for bits in (1, 2, field.bits)]
    table("The bits of a root, and the root.", field.name + "_ROOTS", "(usize, u64)", roots)
    powers = (pow(field.generator, 100, p), pow(field.generator, 2**10, p), pow(2, -70, p))
    print("\n// The generator's powers 100 and 2^10, and one halved 70 times.")
    print(f"pub const {field.name}_POWERS: (u64, u64, u64) = {powers};")
