#!/usr/bin/env python3
"""census.py: every valid divisor of a small curve, by trying all pairs (u, v). The search uses nothing of reference.py, not even its polynomials.

    python3 tools/reference/census.py CURVE    prints what the program `census` prints for the file CURVE: a record a line, or a refusal's line
"""
import itertools
import sys

import reference


def shifted(c, u, p):
    """x·c modulo u: c is three numbers, of degree below w, and of u there are the w below its leading 1."""
    w = len(u)
    raised = (0,) + c[: w - 1]
    return tuple((a - c[w - 1] * b) % p for a, b in zip(raised, u)) + (0,) * (3 - w)


def squares_of(p, w):
    """Every v of w numbers, in the order of its record, with the five coefficients of v²."""
    found = []
    for v in itertools.product(range(p), repeat=w):
        a, b, c = v + (0,) * (3 - w)
        found.append((v, a * a, 2 * a * b, b * b + 2 * a * c, 2 * b * c, c * c))
    return found


def divisors(g, p, f):
    """Pairs of u_0 up to u_(w-1) and v_0 up to v_(w-1), in order of weight and then of the record; f with its leading 1."""
    yield (), ()
    for w in range(1, g + 1):
        squares = squares_of(p, w)
        for u in itertools.product(range(p), repeat=w):
            powers = [(1, 0, 0)]  # of x, modulo u
            for _ in f[1:]:
                powers.append(shifted(powers[-1], u, p))
            rows = []
            for i in range(3):
                wanted = sum(c * power[i] for c, power in zip(f, powers))
                rows.append((*(power[i] for power in powers[:5]), wanted))
            (a0, a1, a2, a3, a4, a), (b0, b1, b2, b3, b4, b), (c0, c1, c2, c3, c4, c) = rows
            for v, s0, s1, s2, s3, s4 in squares:
                if (s0 * a0 + s1 * a1 + s2 * a2 + s3 * a3 + s4 * a4 - a) % p:
                    continue
                if (s0 * b0 + s1 * b1 + s2 * b2 + s3 * b3 + s4 * b4 - b) % p:
                    continue
                if (s0 * c0 + s1 * c1 + s2 * c2 + s3 * c3 + s4 * c4 - c) % p == 0:
                    yield u, v


def text_of(g, p, f):
    """Each record as a line: the weight in two hexadecimal digits, then each number in sixteen."""
    return "".join("%02x%s\n" % (len(u), "".join(" %016x" % n for n in u + v)) for u, v in divisors(g, p, f))


def main():
    if len(sys.argv) != 2:
        sys.exit(__doc__)
    try:
        curve = reference.read_training_file(reference.file_content(sys.argv[1]))
    except reference.Refused as refusal:
        sys.stdout.write(reference.refused_line(refusal))
    else:
        sys.stdout.write(text_of(curve.g, curve.p, curve.f))


if __name__ == "__main__":
    main()
