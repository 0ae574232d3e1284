#!/usr/bin/env python3
"""sage_judge.py: holds a sample of the sums and doubles of the vectors to Sage's own Jacobian arithmetic, where Debian's
`sagemath` is installed.

    python3 tools/check/sage_judge.py [MOST]     judges at most MOST sums and doubles (400), spread over the whole file

Frames and answers are those of crates/test_vectors, data/vectors and stdout, which the program `test_vectors` is held to. Without Sage it
says so and exits 0: nothing was judged then. Exit 1 if Sage finds another sum.
"""
import os
import shutil
import sys

sys.path += [os.path.join(os.path.dirname(os.path.abspath(__file__)), "..", folder) for folder in ("reference", "make")]
import reference as r
from frames import ADD, DOUBLE, decoded, read_parts

AGAIN = "SAGE_JUDGE_AGAIN"
CRATE = os.path.join(os.path.dirname(os.path.abspath(__file__)), "..", "..", "crates", "test_vectors")


def done():
    """Every sum and double that was done: curve, the two divisors, and the divisor in the expected line."""
    frames = decoded(read_parts(os.path.join(CRATE, "data", "vectors")))
    with open(os.path.join(CRATE, "stdout"), encoding="ascii") as file:
        lines = file.read().splitlines()
    for frame, line in zip(frames, lines):
        number, _, length, *rest = line.split()
        if frame.operation in (ADD, DOUBLE) and number == "0":
            curve = r.read_curve(frame.curve)
            a = r.read_divisor(curve, frame.first, 1)
            b = r.read_divisor(curve, frame.second, 2) if frame.operation == ADD else a
            yield curve, a, b, r.read_divisor(curve, bytes.fromhex(rest[0])[: int(length)], 1)


def judged(sage, cases):
    """How many of the sums Sage finds otherwise; each is printed."""
    wrong = 0
    for curve, a, b, result in cases:
        field = sage.GF(curve.p)
        ring = sage.PolynomialRing(field, "x")
        jacobian = sage.HyperellipticCurve(ring(list(curve.f))).jacobian()(field)
        first, second = (jacobian([ring(list(u)), ring(list(v))]) for u, v in (a, b))
        total = first + second
        got = tuple(tuple(int(c) for c in total[k].list()) for k in (0, 1))
        if got != tuple(result):
            print("g = %d, p = %d, f = %s: %s + %s is %s, and Sage finds %s" % (*curve, tuple(a), tuple(b), tuple(result), got))
            wrong += 1
    return wrong


def main():
    most = int(sys.argv[1]) if len(sys.argv) > 1 else 400
    try:
        import sage.all as sage
    except ImportError:
        if shutil.which("sage") and AGAIN not in os.environ:
            os.execvpe("sage", ["sage", "-python", os.path.abspath(__file__), *sys.argv[1:]], {**os.environ, AGAIN: "1"})
        print("Sage isn't installed here: nothing was judged")
        return 0
    cases = list(done())
    sample = cases[:: max(1, -(-len(cases) // most))]
    wrong = judged(sage, sample)
    print("%d of %d sums and doubles judged by Sage, %d wrong" % (len(sample), len(cases), wrong))
    return 1 if wrong else 0


if __name__ == "__main__":
    sys.exit(main())
