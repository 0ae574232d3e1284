#!/usr/bin/env python3
"""tuple_vectors.py: pairs of tuples (W-206) for crates/test_tuples, and what it must print of them.

    python3 tools/make/tuple_vectors.py             writes crates/test_tuples/stdin and stdout
    python3 tools/make/tuple_vectors.py --check     writes nothing: both must be what it would write

A tuple is a divisor of weight 2 with its four numbers times Z, and Z. What is printed is found from the divisors alone, by document 01's sum
(reference.py); a pair is special where the tables don't serve it: both u have a common factor (in a double, u and 2v), or the sum weighs less than 2.
Each pair stands under several Z, so that equal quotients must print the same.
"""
import itertools
import os
import random
import sys

sys.path.append(os.path.join(os.path.dirname(os.path.abspath(__file__)), "..", "reference"))
import made
import reference
from reference import Curve, Divisor

SMALL, LARGE = [3, 5, 7, 11], 2147483647


def accepted(p, low):
    f = reference.polynomial(low + [1], p)
    return None if reference.has_repeated_factor(f, p) else Curve(2, p, f)


def curve_of(rng, p):
    while True:
        curve = accepted(p, [rng.randrange(p) for _ in range(5)])
        if curve:
            return curve


def divisors_of(curve):
    """All of weight 2, at a small prime."""
    p = curve.p
    for u0, u1, v0, v1 in itertools.product(range(p), repeat=4):
        u, v = reference.polynomial([u0, u1, 1], p), reference.polynomial([v0, v1], p)
        if reference.divides_f_less_v_squared(curve, u, v):
            yield Divisor(u, v)


def drawn(rng, curve):
    """One of weight 2 at a large prime that is 3 modulo 4: two points of different x, summed."""
    p = curve.p
    found = []
    while len(found) < 2:
        x = rng.randrange(p)
        y2 = reference.value_at(curve.f, x, p)
        y = pow(y2, (p + 1) // 4, p)
        if y * y % p == y2 and (not found or found[0].u != reference.polynomial([-x, 1], p)):
            found.append(Divisor(reference.polynomial([-x, 1], p), reference.polynomial([rng.choice([y, p - y])], p)))
    return reference.sum_of(curve, *found)


def pairs():
    rng = random.Random(206)
    for p in SMALL:
        for _ in range(3):
            curve = curve_of(rng, p)
            every = list(divisors_of(curve))
            for _ in range(6 if every else 0):
                yield curve, rng.choice(every), rng.choice(every)
            if every:
                d = rng.choice(every)
                yield curve, d, d
                yield curve, d, reference.opposite_of(curve, d)
    for _ in range(4):
        curve = curve_of(rng, LARGE)
        a, b = drawn(rng, curve), drawn(rng, curve)
        yield curve, a, b
        yield curve, reference.sum_of(curve, a, b), reference.opposite_of(curve, b)
        yield curve, b, reference.double_of(curve, b)
        yield curve, a, a


def rows():
    """The first pair of Z is 1 and 1, then p - 1 and 2, then any two."""
    rng = random.Random(1)
    for curve, a, b in pairs():
        p = curve.p
        for z, w in ((1, 1), (p - 1, 2), (rng.randrange(1, p), rng.randrange(1, p))):
            yield curve, a, z, b, w


def quotients(divisor):
    """u1, u0, v1, v0"""
    v = list(divisor.v) + [0, 0]
    return [divisor.u[1], divisor.u[0], v[1], v[0]]


def tuple_of(divisor, z, p):
    return [n * z % p for n in quotients(divisor)] + [z]


def coprime(a, b, p):
    return reference.degree(reference.greatest_common_divisor(a, b, p)[0]) == 0


def line(name, total, free):
    return " ".join(map(str, [name] + (quotients(total) if free and reference.weight(total) == 2 else ["special"]))) + "\n"


def main():
    data, text = b"", ""
    for curve, a, z, b, w in rows():
        p = curve.p
        numbers = [p, curve.f[2], curve.f[3], curve.f[4]] + tuple_of(a, z, p) + tuple_of(b, w, p)
        data += b"".join(n.to_bytes(4, "big") for n in numbers)
        apart = coprime(a.u, b.u, p)
        text += line("sum", reference.sum_of(curve, a, b), apart)
        text += line("mixed", reference.sum_of(curve, a, b), apart)
        text += line("double", reference.double_of(curve, a), coprime(a.u, reference.plus(a.v, a.v, p), p))
    return made.settle({"crates/test_tuples/stdin": data, "crates/test_tuples/stdout": text.encode("ascii")}, sys.argv[1:])


if __name__ == "__main__":
    sys.exit(main())
