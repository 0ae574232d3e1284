#!/usr/bin/env python3
"""field_vectors.py: what crates/test_tables must print, by Python's own whole numbers and from the definitions only.

    python3 tools/make/field_vectors.py             writes crates/test_tables/stdout
    python3 tools/make/field_vectors.py --check     writes nothing: it must be what it would write
"""
import sys

import made

PRIMES = [3, 5, 7, 11, 65537, 2147483647]
TRIED = [
    0, 1, 2, 3, 4, 5, 9, 15, 25, 49, 121, 169, 561, 1105, 1729, 2465, 2821, 6601, 8911, 65537, 4294967297, 46337**2, 2147483629,
    2147483631, 2147483643, 2147483645, 2147483646, 2147483647, 2147483648, 2147483659, 2**61 - 1, 18446744073709551557,
]
LIMIT = 2147483647
# Odd numbers up to the largest modulus; the last three are past the limit of a record, and primes.
EDGES = [3, 5, 7, 65537, 2147483647, 693386350578511591, 27 * 2**56 + 1, 2**61 - 1]


def odd_prime_within_limit(n):
    # Miller and Rabin with bases that are exact far past the limit: no trial division here.
    if n < 3 or n > LIMIT or n % 2 == 0:
        return False
    odd, twos = n - 1, 0
    while odd % 2 == 0:
        odd, twos = odd // 2, twos + 1
    for base in (2, 3, 5, 7, 11, 13):
        if base % n == 0:
            continue
        x = pow(base, odd, n)
        if x in (1, n - 1):
            continue
        if not any(pow(x, 2**k, n) == n - 1 for k in range(1, twos)):
            return False
    return True


def samples(p):
    return [n % p for n in (0, 1, 2, p // 2, p // 3, 1234567, 18446744073709551615, 987654321)]


def arithmetic_rows(p):
    for a in samples(p):
        for b in samples(p):
            inverse = pow(a, -1, p) if a else "none"
            yield [p, a, b, (a + b) % p, (a - b) % p, a * b % p, -a % p, inverse]


def edge_rows(p):
    # A residue that holds x stands for x / 2^64. Operands are given by what they hold, results by the numbers that they stand for.
    held = [0, 1, p - 1, p, p + 1, 2 * p - 1]
    value = {x: x * pow(2**64, -1, p) % p for x in held}
    yield [p]
    for x in held:
        a = value[x]
        half = next(h for h in (a // 2, (a + p) // 2) if 2 * h % p == a)
        yield [x, -a % p, 2 * a % p, half, a * a % p, pow(a, 0, p), pow(a, p, p), pow(a, 2**64 - 1, p)]
    d = value[2 * p - 1]
    for x in held:
        for y in held:
            a, b = value[x], value[y]
            thirds = [n % p for z in (0, p, 2 * p - 1) for c in [value[z]] for n in (a * (b + c), a * (b - c), a * b + c * d, a * b - c * d)]
            yield [x, y] + thirds + [(a + b) % p, (a - b) % p, a * b % p]


def rows():
    for p in PRIMES:
        yield from arithmetic_rows(p)
    for n in TRIED:
        yield [n, "prime" if odd_prime_within_limit(n) else "refused"]
    for p in EDGES:
        yield from edge_rows(p)


def main():
    text = "".join(" ".join(map(str, row)) + "\n" for row in rows())
    return made.settle({"crates/test_tables/stdout": text.encode("ascii")}, sys.argv[1:])


if __name__ == "__main__":
    sys.exit(main())
