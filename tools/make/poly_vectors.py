#!/usr/bin/env python3
"""poly_vectors.py: pairs of polynomials for crates/test_polynomials, and what it must print of them.

    python3 tools/make/poly_vectors.py             writes crates/test_polynomials/stdin and stdout
    python3 tools/make/poly_vectors.py --check     writes nothing: both must be what it would write

Polynomials are Python lists, constant first, and every algorithm is the textbook one over Python's whole numbers.
"""
import random
import sys

import made

PRIMES = [3, 5, 7, 2147483647]
ROOM = 11
SEED = 1


def trim(a):
    while a and a[-1] == 0:
        a = a[:-1]
    return a


def add(a, b, p, sign=1):
    n = max(len(a), len(b))
    a, b = a + [0] * (n - len(a)), b + [0] * (n - len(b))
    return trim([(x + sign * y) % p for x, y in zip(a, b)])


def mul(a, b, p):
    if not a or not b:
        return []
    # column by column: the coefficient at k is the sum of all a_i * b_(k-i)
    return trim([sum(a[i] * b[k - i] for i in range(len(a)) if 0 <= k - i < len(b)) % p for k in range(len(a) + len(b) - 1)])


def scale(a, c, p):
    return trim([x * c % p for x in a])


def monic(a, p):
    return scale(a, pow(a[-1], -1, p), p) if a else []


def divide(a, b, p):
    inverse, q, r = pow(b[-1], -1, p), [0] * max(0, len(a) - len(b) + 1), list(a)
    for k in reversed(range(len(q))):
        q[k] = r[k + len(b) - 1] * inverse % p
        for i, y in enumerate(b):
            r[k + i] = (r[k + i] - q[k] * y) % p
    return trim(q), trim(r)


def gcd(a, b, p):
    """(r, s, t) with r = s * a + t * b monic, or zero: recursive."""
    if not b:
        c = pow(a[-1], -1, p) if a else 1
        return monic(a, p), [c] if a else [1], []
    q, e = divide(a, b, p)
    r, s, t = gcd(b, e, p)
    return r, t, add(s, mul(q, t, p), p, -1)


def derivative(a, p):
    return trim([k * x % p for k, x in enumerate(a)][1:])


def some(rng, degree, p):
    """A polynomial of that degree; degree -1 is zero."""
    if degree < 0:
        return []
    return [rng.choice([0, rng.randrange(p), rng.randrange(p)]) for _ in range(degree)] + [rng.randrange(1, p)]


def pairs(seed):
    rng = random.Random(seed)
    for p in PRIMES:
        for i in range(-1, 10):
            yield p, some(rng, i, p), some(rng, 9 - max(i, 0), p)  # all degrees from 0 to 9, against one another
            yield p, some(rng, rng.randrange(-1, 10), p), some(rng, i, p)
        for i in range(0, 10, 3):
            a = some(rng, i, p)
            yield p, a, a  # equal
            yield p, a, scale(a, p - 1, p)  # opposite, so that sums vanish
        for i in (1, 2, 3, 4):  # a common factor of degree i, and a square
            f, g, h = some(rng, i, p), some(rng, 5 - i, p), some(rng, rng.randrange(0, 6), p)
            yield p, mul(f, g, p), mul(f, h, p)
            yield p, mul(mul(f, f, p), some(rng, 1, p), p), mul(f, g, p)
        yield p, [1] + [0] * 4 + [1], [0, 0, 0, 0, 5 % p]  # x^5 + 1 and its derivative
        yield p, [1] + [0] * 6 + [1], [0] * 6 + [7 % p]
        yield p, [p - 1] * 10, [p - 1] * 7  # full numbers, and the longest product
        yield p, [], []


def shown(name, a):
    return " ".join([name] + [str(x) for x in a])


def answers(p, a, b):
    yield "p %d" % p
    yield shown("a", a)
    yield shown("b", b)
    yield shown("sum", add(a, b, p))
    yield shown("difference", add(a, b, p, -1))
    yield shown("opposite", add([], a, p, -1))
    yield shown("product", mul(a, b, p)) if len(a) + len(b) <= ROOM + 1 else "product none"
    if b:
        q, r = divide(a, monic(b, p), p)
        yield shown("quotient", q)
        yield shown("remainder", r)
    else:
        yield "quotient none"
    r, s, t = gcd(a, b, p)
    yield shown("gcd", r)
    yield shown("again", r)
    yield shown("s", s)
    yield shown("t", t)
    assert add(mul(s, a, p), mul(t, b, p), p) == r
    d = derivative(a, p)
    yield shown("derivative", d)
    yield "square-free" if len(gcd(a, d, p)[0]) == 1 else "repeated factor"


def main():
    data, text = b"", ""
    for p, a, b in pairs(SEED):
        a, b = trim(a), trim(b)
        data += b"".join(n.to_bytes(4, "big") for n in [p, len(a)] + a + [len(b)] + b)
        text += "".join(line + "\n" for line in answers(p, a, b))
    return made.settle({"crates/test_polynomials/stdin": data, "crates/test_polynomials/stdout": text.encode("ascii")}, sys.argv[1:])


if __name__ == "__main__":
    sys.exit(main())
