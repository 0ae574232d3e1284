#!/usr/bin/env python3
"""selfcheck.py: reference.py held against every example of document 01, against the rules of refusal by hand,
and against methods that share nothing with it: ideals.py for sums, point counts for the number of valid divisors, searches for splits.

    python3 tools/check/selfcheck.py    prints how many checks held; exit 1 on a failure

Whatever can't be had from document 01's examples is written out by hand here: no expected number below comes from reference.py itself.
"""
import itertools
import math
import os
import sys

sys.path.append(os.path.join(os.path.dirname(os.path.abspath(__file__)), "..", "reference"))
import census
import classes
import ideals
import orders
import reference as r
import splits
import witnesses
from corner_table import (
    B_X_10, B_XXX_1, B_XXX_10, BROKEN_FILES, BROKEN_ORDERS, BY_7, BY_LARGEST, CASE_P, CASE_P_COUNT, CASE_P_REPEAT, CASE_P_TOTAL, CURVE_A, CURVE_B,
    CURVES, DIVISORS, KEYS, LARGEST, NEUTRAL, NEXT, ORDERS, POLE_FILES, POLE_SCANS, SCALARS, SPLITS, TWOS, WITNESSED, X1_0, X6_3, X_1, X_2, X_6,
    XX6X, XX_1, XX_6, XXX_X1, each_example, power_and_1,
)  # fmt: skip
from records import curve_record, divisor_record, in_4_bytes, pole_file, scan_record

held = 0
failures = []


def expect(name, got, wanted):
    global held
    if got == wanted:
        held += 1
    else:
        failures.append("%s: got %r, wanted %r" % (name, got, wanted))


GUARD = b"\xa5"


def expect_written(name, call, record, more=()):
    """The call (a function of the output) on outputs one byte short, exact and longer."""
    short = GUARD * (len(record) - 1)
    expect(name + ", short", call(short), ((13, 0, 0) + (0,) * len(more), short))
    for extra in (0, 1, 40):
        out = GUARD * (len(record) + extra)
        expect(name, call(out), ((0, 0, len(record)) + more, record + GUARD * extra))


def check_examples():
    """A1 to A9 and B1 to B3."""

    def sums(name, curve, a, b, record):
        expect_written(name, lambda out: r.add(curve, a, b, out), record)
        expect_written(name + " turned round", lambda out: r.add(curve, b, a, out), record)

    def doubles(name, curve, a, record):
        expect_written(name, lambda out: r.double(curve, a, out), record)
        sums(name + " as a sum", curve, a, a, record)
        multiples(name + " as a multiple", curve, a, 2, record, (1, 0))

    def multiples(name, curve, a, n, record, counts):
        for scalar in (bytes([n]), bytes(31) + bytes([n])):
            if record == NEUTRAL:
                for out in (b"", GUARD, GUARD * 49):
                    expect(name, r.multiply(curve, a, scalar, out), ((19, 0, 0, 0, 0), out))
            else:
                expect_written(name, lambda out: r.multiply(curve, a, scalar, out), record, counts)
        expect_written(name + " as a batch", lambda out: r.total_batch(curve, a * n, out), record, (n,))

    each_example(sums, doubles, multiples)
    multiples("0-fold", CURVE_A, X_1, 0, NEUTRAL, (0, 0))
    multiples("1-fold", CURVE_A, X_1, 1, X_1, (0, 0))
    expect_written("opposite", lambda out: r.opposite(CURVE_A, XX6X, out), divisor_record([0, 6], [6, 5]))
    expect_written("opposite of y = 0", lambda out: r.opposite(CURVE_A, X1_0, out), X1_0)
    expect_written("opposite of neutral", lambda out: r.opposite(CURVE_A, NEUTRAL, out), NEUTRAL)


def check_corners():
    """The refusals of "Street corners", each through every call that can give it."""
    for name, curve, number in CURVES + WITNESSED:
        expect(name, r.check_curve(curve), ((number, 0, 0), None))
        if number == 0:
            expect_written(name, lambda out: r.rewrite_curve(curve, out), curve)
    for p in (1, 2, 9, 2147483648, 0, 2147483646, 2**63, 2**64 - 1):
        for f in ([0] * 5, [1, 0, 0, 0, 0]):
            expect("p = %d" % p, r.check_curve(curve_record(2, p, f)), ((5, 0, 0), None))
    expect("f_i = p", r.check_curve(curve_record(2, 7, [1, 0, 0, 0, 7])), ((6, 0, 0), None))
    # f = x^5 + 6x^4 + 1 has the derivative x³·(5x + 3) with roots 0 and 5, and f(0) = 1, f(5) = 2.
    expect("f_i = p - 1", r.check_curve(curve_record(2, 7, [1, 0, 0, 0, 6])), ((0, 0, 0), None))

    for number, record in [(number, record) for _, record, number in DIVISORS] + [
        (10, divisor_record([0], [8])),
        (10, divisor_record([0], [2**64 - 1])),
        (8, b""),
        (8, X_1[:-1]),
        (8, X_1 + b"\0"),
        (8, b"\0\0"),
        (8, b"\2" + X_1[1:]),
        (9, b"\3"),
        (9, b"\xff"),
        (9, b"\3" + bytes(48)),
        (0, NEUTRAL),
    ]:
        place = 1 if number else 0
        out = GUARD * 60
        expect("check %r" % record, r.check_divisor(CURVE_A, record), ((number, place, 0), None))
        if number:
            expect("rewrite", r.rewrite_divisor(CURVE_A, record, out), ((number, 1, 0), out))
            expect("double", r.double(CURVE_A, record, out), ((number, 1, 0), out))
            expect("opposite", r.opposite(CURVE_A, record, out), ((number, 1, 0), out))
            expect("split", r.split(CURVE_A, record, out), ((number, 1, 0), out))
            expect("next divisor", r.next_divisor(CURVE_A, record, out), ((number, 1, 0), out))
            expect("multiply", r.multiply(CURVE_A, record, b"\1", out), ((number, 1, 0, 0, 0), out))
            expect("add, first", r.add(CURVE_A, record, X_1, out), ((number, 1, 0), out))
            expect("add, second", r.add(CURVE_A, X_1, record, out), ((number, 2, 0), out))
            total = (1, 0, 0, 0, 1, 0, 0, 9, 5)
            expect("scan", r.scan(total, CURVE_A, scan_record(5, record)), ((number, 1, 0) + total, None))
            expect("scan for another pole", r.scan(total, CURVE_A, scan_record(6, record)), ((20, 0, 0) + total, None))
        else:
            expect_written("rewrite", lambda out: r.rewrite_divisor(CURVE_A, record, out), record)

    out = GUARD * 33
    for name, scalar, number, record, counts in SCALARS:
        if number:
            expect(name, r.multiply(CURVE_A, X_1, scalar, out), ((number, 0, 0) + counts, out))
        else:
            expect_written(name, lambda out: r.multiply(CURVE_A, X_1, scalar, out), record, counts)
    for name, curve, a, scalar, length, number in KEYS:
        out = GUARD * length
        expect(name, r.multiply(curve, a, scalar, out), ((number, 0, 0, 0, 0), out))
    for name, curve, a, order, primes, number in ORDERS + BROKEN_ORDERS:
        expect(name, r.check_order(curve, a, order, primes), ((number, 0, 0), None))
    expect("12 before 13", r.multiply(CURVE_A, X_1, bytes(33), b""), ((12, 0, 0, 0, 0), b""))
    out = GUARD * 32
    expect("output of 32", r.double(CURVE_A, X_1, out), ((13, 0, 0), out))
    expect("output of 33", r.double(CURVE_A, X_1, out + GUARD), ((0, 0, 33), XX_1))
    expect("output of 0", r.add(CURVE_A, X_1, X_6, b""), ((13, 0, 0), b""))


def check_order():
    """The order of refusals: one record that has every fault at once, mended from first to last. What the
    document puts first must be answered until it's mended."""
    bad_f = [7, 0, 0, 0, 0]  # one number of p or more, and 0 in its place makes x^5: a repeated factor
    ladder = [
        (1, b"XYZ\0\7"),  # short, a wrong mark, a wrong version
        (1, b"HJC\0\1\2"),  # six bytes with nothing wrong so far
        (2, b"XYZ\0\7\7"),
        (3, b"HJC\0\7\7"),
        (4, b"HJC\0\1\7"),
        (2, curve_record(9, 9, bad_f, mark=b"XYZ", version=7)[:-1]),
        (3, curve_record(9, 9, bad_f, version=7)[:-1]),
        (4, curve_record(9, 9, bad_f)[:-1]),
        (1, curve_record(2, 9, [9, 0, 0, 0, 0])[:-1]),
        (1, curve_record(3, 9, [9, 0, 0, 0, 0])),
        (5, curve_record(2, 9, [9, 0, 0, 0, 0])),
        (6, curve_record(2, 7, bad_f)),
        (7, curve_record(2, 7, [0, 0, 0, 0, 0])),
    ]
    # version 2: k of 16, a record too long, 8 for p, 3 for a base where 4 listed is wrong, all at once, and mended one after the other
    base_4 = (3, (2, 4))
    ladder += [
        (2, curve_record(9, 8, bad_f, mark=b"XYZ", version=3, witness=base_4, k=16)[:62]),
        (3, curve_record(9, 8, bad_f, version=3, witness=base_4, k=16)[:62]),
        (4, curve_record(9, 8, bad_f, witness=base_4, k=16)[:62]),
        (1, curve_record(2, 8, [8, 0, 0, 0, 0], witness=base_4, k=16)[:62]),
        (18, curve_record(2, 8, [8, 0, 0, 0, 0], witness=base_4, k=16)[:63]),
        (18, curve_record(2, 8, [8, 0, 0, 0, 0], witness=base_4, k=16)),
        (18, curve_record(2, 8, [8, 0, 0, 0, 0], witness=base_4, k=0) + b"\0"),
        (1, curve_record(2, 8, [8, 0, 0, 0, 0], witness=base_4) + b"\0"),
        (1, curve_record(2, 8, [8, 0, 0, 0, 0], witness=base_4)[:-1]),
        (1, curve_record(3, 8, [8, 0, 0, 0, 0, 0, 0], witness=base_4, k=3)),
        (5, curve_record(2, 8, [8, 0, 0, 0, 0], witness=base_4)),
        (5, curve_record(3, 2**61, [0] * 7, witness=(0, (9,) * 15))),
        (18, curve_record(2, 7, bad_f, witness=base_4)),
        (18, curve_record(2, 9, [9, 0, 0, 0, 0], witness=(8, (2,)))),
        (18, curve_record(2, 7, [0, 0, 0, 0, 0], witness=(3, (3, 2)))),
        (6, curve_record(2, 7, bad_f, witness=BY_7)),
        (7, curve_record(2, 7, [0, 0, 0, 0, 0], witness=BY_7)),
    ]
    wrong_divisors = [
        (8, b""),
        (9, b"\3" + (7).to_bytes(8, "big") * 3),
        (8, b"\1" + (7).to_bytes(8, "big") * 3),
        (10, divisor_record([7], [2])),
        (11, divisor_record([0], [2])),
    ]
    later = wrong_divisors + [(0, X_1)]
    bad_total, full_total = (9,) * 7 + (5000, 1), (0,) * 7 + (4096, 1)
    for number, curve in ladder:
        expect("curve %d" % number, r.check_curve(curve), ((number, 0, 0), None))
        expect("curve %d, rewrite" % number, r.rewrite_curve(curve, b""), ((number, 0, 0), b""))
        expect("curve %d, scan" % number, r.scan(bad_total, curve, b""), ((number, 0, 0) + bad_total, None))
        if number not in (1, 18):
            file = pole_file(1, curve, (b"\xff",), count=5000)
            expect("curve %d, reading a file" % number, r.read_pole_file(file, b""), ((number, 0, 0, 0), b""))
            expect("22 first", r.read_pole_file(pole_file(1, curve, (), version=0), b""), ((22, 0, 0, 0), b""))
            expect("21 first", r.read_pole_file(pole_file(1, curve, (), mark=b"HJC", version=0), b""), ((21, 0, 0, 0), b""))
        for _, wrong in later:
            expect("curve first", r.check_divisor(curve, wrong), ((number, 0, 0), None))
            expect("curve first", r.rewrite_divisor(curve, wrong, b""), ((number, 0, 0), b""))
            expect("curve first", r.add(curve, wrong, wrong, b""), ((number, 0, 0), b""))
            expect("curve first", r.double(curve, wrong, b""), ((number, 0, 0), b""))
            expect("curve first", r.opposite(curve, wrong, b""), ((number, 0, 0), b""))
            expect("curve first", r.split(curve, wrong, b""), ((number, 0, 0), b""))
            expect("curve first", r.next_divisor(curve, wrong, b""), ((number, 0, 0), b""))
            expect("curve first", r.multiply(curve, wrong, bytes(33), b""), ((number, 0, 0, 0, 0), b""))
            expect("curve first", r.check_order(curve, wrong, bytes(33), b"\0"), ((number, 0, 0), None))
            expect("curve first", r.total_batch(curve, wrong, b""), ((number, 0, 0, 0), b""))
            expect("curve first", r.first_repeat(curve, wrong), ((number, 0, 0, 0, 0), None))
            expect("curve first", r.write_pole_file(1, curve, wrong, b""), ((number, 0, 0), b""))
    for number, wrong in wrong_divisors:
        for _, second in later:
            expect("first divisor first", r.add(CURVE_A, wrong, second, b""), ((number, 1, 0), b""))
        expect("second divisor", r.add(CURVE_A, X_1, wrong, b""), ((number, 2, 0), b""))
        expect("before 12", r.multiply(CURVE_A, wrong, bytes(33), b""), ((number, 1, 0, 0, 0), b""))
        expect("before 19", r.multiply(CURVE_A, wrong, b"", b""), ((number, 1, 0, 0, 0), b""))
        for order, primes in ((bytes(33), b""), (b"", b""), (b"\5", b"\0\0\0\5"), (b"\5", b"\0"), (b"\n", bytes(132))):
            expect("before 12 and 27", r.check_order(CURVE_A, wrong, order, primes), ((number, 1, 0), None))
        expect("before 13", r.double(CURVE_A, wrong, b""), ((number, 1, 0), b""))
        expect("before 13", r.opposite(CURVE_A, wrong, b""), ((number, 1, 0), b""))
        expect("before 26 and 13", r.split(CURVE_A, wrong, b""), ((number, 1, 0), b""))
        expect("before 24 and 13", r.next_divisor(CURVE_A, wrong, b""), ((number, 1, 0), b""))
        for p, witness in ((17, None), (17, (3, (2,))), (2147483647, None), (LARGEST, BY_LARGEST)):
            for out in (b"", GUARD * 49):
                expect("25 first", r.next_divisor(power_and_1(2, p, witness), wrong, out), ((25, 0, 0), out))
        expect("before 13", r.rewrite_divisor(CURVE_A, wrong, b""), ((number, 1, 0), b""))
        for scanned in (scan_record(1, wrong), scan_record(2, wrong), b"\0\0\0", b""):
            expect("15 first", r.scan(bad_total, CURVE_A, scanned), ((15, 0, 0) + bad_total, None))
            expect("14 first", r.scan(full_total, CURVE_A, scanned), ((14, 0, 0) + full_total, None))
        if number != 8:
            expect("writing a file", r.write_pole_file(1, CURVE_A, X_1 + wrong + b"\xff", b""), ((number, 2, 0), b""))
            expect("reading a file", r.read_pole_file(pole_file(1, CURVE_A, (X_1, wrong, b"\xff")), b""), ((number, 2, 0, 0), b""))


def check_witnesses():
    """No odd composite below 3,000 has an accepted witness. Only the primes of n - 1 can be its list: any other has a number that isn't a
    prime or doesn't divide n - 1, or leaves something of n - 1, as the small numbers show with every list of up to three. A prime has as
    many good bases as there are numbers prime to p - 1 below it."""
    for n in range(3, 3000, 2):
        primes = witnesses.primes_of(n - 1)
        good = sum(r.is_shown_prime.__wrapped__(n, (a, primes)) for a in range(n + 2))
        wanted = 0 if witnesses.is_composite(n) else sum(1 for a in range(1, n) if math.gcd(a, n - 1) == 1)
        expect("good bases for %d" % n, good, wanted)
    for n in range(3, 16, 2):
        for length in range(4):
            for primes in itertools.product(range(n + 1), repeat=length):
                if primes != witnesses.primes_of(n - 1):
                    good = [a for a in range(2 * n) if r.is_shown_prime.__wrapped__(n, (a, primes))]
                    expect("%d by %s" % (n, primes), good, [])
    for p in (3, 5, 7, 11, 19, 31, 36847, LARGEST):
        a, primes = BY_LARGEST if p == LARGEST else witnesses.witness_of(p)
        changed = [primes[:i] + (q,) + primes[j:] for i in range(len(primes) + 1) for j in (i, i + 1) for q in (0, 1, 2, 3, 9, p, 2**31)]
        for base, listed in itertools.product((0, 1, a, a * a % p, p - 1, p, p + a), changed + [primes, primes[:-1], primes[1:]]):
            right = not witnesses.faults_of(p, base, listed)
            expect("%d by %d and %s" % (p, base, listed), r.is_shown_prime(p, (base, listed)), right)
    for n in (561, 1105, 1729, 2465, 2821, 6601, 8911):  # Carmichael's
        liars = [a for a in range(1, n) if math.gcd(a, n) == 1]
        expect("liars of %d" % n, all(pow(a, n - 1, n) == 1 for a in liars), True)
        expect("furthest for %d" % n, r.is_shown_prime(n, witnesses.furthest(n)), False)


def check_key_orders():
    """Every divisor of small curves, in both versions: counted out by ideals.py, its order is accepted with its primes, and no other number up
    to a bound with its own. On curve A, numbers with every list of up to three, right and wrong."""
    curves = [
        (2, 3, (1, 1, 0, 0, 1), None, 1), (2, 5, (0, 4, 0, 0, 0), None, 3), (2, 7, (1, 0, 0, 0, 0), BY_7, 1), (3, 3, (1, 2, 0, 0, 0, 0, 0), None, 1),
        (3, 3, (0, 1, 1, 0, 0, 1, 1), (2, (2,)), 3),
    ]  # fmt: skip
    for g, p, stored, witness, stride in curves:
        record = curve_record(g, p, stored, witness=witness)
        curve = r.read_curve(record)
        for divisor in splits.all_divisors(curve)[::stride]:
            a, order, total = r.write_divisor(divisor), 1, tuple(divisor)
            while total != tuple(r.NEUTRAL):
                total, order = ideals.sum_by_ideals(g, p, curve.f, total, divisor), order + 1
            accepted = [
                n for n in range(2 * order + 12)
                if r.check_order(record, a, orders.in_bytes(n), in_4_bytes(witnesses.primes_of(n) if n else ())) == ((0, 0, 0), None)
            ]  # fmt: skip
            expect("orders of %s" % a.hex(), accepted, [order])
            for spread in (1, 2, 31, 32):
                spelled = order.to_bytes(spread, "big")
                expect("%d in %d bytes" % (order, spread), r.check_order(record, a, spelled, in_4_bytes(witnesses.primes_of(order))), ((0, 0, 0), None))
    lists = [primes for length in range(4) for primes in itertools.product((0, 1, 2, 3, 5, 10, 25), repeat=length)]
    for a, order, right in ((NEUTRAL, 1, ()), (X1_0, 2, (2,)), (X_1, 5, (5,)), (XXX_X1, 10, (2, 5))):
        for n in (1, 2, 5, 10, 20, 30):
            accepted = [primes for primes in lists if r.check_order(CURVE_A, a, bytes([n]), in_4_bytes(primes)) == ((0, 0, 0), None)]
            expect("lists for %d of %d" % (n, order), accepted, [right] if n == order else [])
            faultless = [primes for primes in lists if not orders.faults_of(order, n, in_4_bytes(primes))]
            expect("lists without a fault for %d of %d" % (n, order), faultless, accepted)


def check_splits():
    """The tables by hand; every divisor of small curves in both versions held to the search over all pairs, and added up again; at large primes
    roots that are known, or known not to be there."""
    for name, curve, a, parts in SPLITS:
        if parts is None:
            for length in (0, 33, 34, 50):
                expect(name, r.split(curve, a, GUARD * length), ((26, 0, 0), GUARD * length))
        else:
            expect_written(name, lambda out: r.split(curve, a, out), b"".join(parts))
    for g, p, stored, witness in SMALL_CURVES:
        record = curve_record(g, p, stored, witness=witness)
        curve = r.read_curve(record)
        for divisor, parts in splits.searched(curve):
            a = r.write_divisor(divisor)
            if parts is None:
                for length in (0, 50):
                    expect("no split of " + a.hex(), r.split(record, a, GUARD * length), ((26, 0, 0), GUARD * length))
            else:
                one, other = map(r.write_divisor, parts)
                expect_written("split of " + a.hex(), lambda out: r.split(record, a, out), one + other)
                expect_written("split and added", lambda out: r.add(record, one, other, out), a)
    for p in (1009, 2147483647, TWOS, LARGEST):
        for n in range(1, 60):
            x, y, z = roots = [pow(5, n * k, p) for k in (1, 2, 3)]
            factors = [(-root % p, 1) for root in roots]
            cubic = r.times(r.times(*factors[:2], p), factors[2], p)
            square = r.times(factors[0], factors[0], p)
            for u, wanted in (
                (cubic, roots), (r.times(*factors[:2], p), (x, y)), (square, (x,)), (r.times(square, factors[2], p), (x, z)),
                (r.times(square, factors[0], p), (x,)), (r.times((0, 1), factors[1], p), (0, y)),
            ):  # fmt: skip
                expect("known roots", set(r.roots_of(u, p)), set(wanted))
            # (x - a)² and (x - a)³ less b^n, where b is neither a square nor a cube: none, and with x - y only y
            nonresidue = {1009: 11, 2147483647: 7, TWOS: 5, LARGEST: 37}[p]
            for degree, power in ((2, pow(nonresidue, 2 * n + 1, p)), (3, pow(nonresidue, 3 * n + 1, p))):
                less = r.minus(classes.product([factors[0]] * degree, p), (power,), p)
                expect("known to have no root", r.roots_of(less, p), ())
                if degree == 2:
                    expect("known to have one", r.roots_of(r.times(less, factors[1], p), p), (y,))


# Of each genus at p = 3, 5, 7, 11, 13, in either version
SMALL_CURVES = (
    (2, 3, (1, 0, 0, 0, 0), None), (2, 3, (1, 1, 0, 0, 1), (2, (2,))), (2, 5, (0, 4, 0, 0, 0), None), (2, 5, (1, 2, 0, 3, 3), (2, (2,))),
    (2, 7, (1, 0, 0, 0, 0), None), (2, 7, (3, 1, 4, 1, 5), BY_7), (2, 11, (1, 0, 0, 0, 0), None), (2, 13, (2, 7, 1, 8, 2), (2, (2, 3))),
    (3, 3, (1, 2, 0, 0, 0, 0, 0), None), (3, 3, (0, 1, 1, 0, 0, 1, 1), (2, (2,))), (3, 5, (0, 4, 0, 0, 0, 0, 1), None),
    (3, 5, (1, 0, 0, 0, 0, 0, 0), (2, (2,))), (3, 7, (1, 6, 0, 0, 0, 0, 0), BY_7), (3, 11, (1, 0, 0, 0, 0, 0, 0), None),
    (3, 13, (2, 7, 1, 8, 2, 8, 1), (2, (2, 3))),
)  # fmt: skip


def check_census():
    """The table by hand; whole censuses of small curves in both versions, from call to call, with 24 at the end, and as the program's text, held to
    census.py's search and to the number of valid divisors that the points over extensions give. In genus 3 at p = 11 and 13 some of the steps."""
    for name, curve, a, after in NEXT:
        if isinstance(after, int):
            for length in (0, 49):
                expect(name, r.next_divisor(curve, a, GUARD * length), ((after, 0, 0), GUARD * length))
        else:
            expect_written(name, lambda out: r.next_divisor(curve, a, out), after)
    for g, p, stored, witness in SMALL_CURVES:
        record = curve_record(g, p, stored, witness=witness)
        curve = r.read_curve(record)
        text = census.text_of(g, p, curve.f)
        records = [bytes.fromhex(line) for line in text.splitlines()]
        expect("number of valid divisors", len(records), group_order(curve))
        expect("each once and in order", records, sorted(set(records)))
        if p**g <= 400:
            expect("the program's text", r.census_text(record), text)
        steps = list(zip(records, records[1:]))
        for a, after in steps if p**g <= 400 else steps[:: len(steps) // 40]:
            expect_written("next after " + a.hex(), lambda out: r.next_divisor(record, a, out), after)
        for out in (b"", GUARD * 50):
            expect("after the last", r.next_divisor(record, records[-1], out), ((24, 0, 0), out))
    expect("no file", r.census_text(None), "refused 17 0\n")
    expect("a long file", r.census_text(bytes(65537)), "refused 16 0\n")
    expect("p = 17", r.census_text(power_and_1(2, 17)), "refused 25 0\n")
    expect("no curve", r.census_text(CURVE_A[:-1]), "refused 1 0\n")


def check_batches():
    out = GUARD * 40
    expect_written("empty batch", lambda out: r.total_batch(CURVE_A, b"", out), NEUTRAL, (0,))
    expect("empty batch, repeat", r.first_repeat(CURVE_A, b""), ((0, 0, 0, 0, 0), None))
    three = b"".join(CASE_P)
    expect_written("case P", lambda out: r.total_batch(CURVE_A, three, out), CASE_P_TOTAL, (CASE_P_COUNT,))
    expect("case P, repeat", r.first_repeat(CURVE_A, three), ((0, 0, 0) + CASE_P_REPEAT, None))
    for number, place, batch in (
        (8, 2, X_1 + X_1[:-1]),
        (8, 2, X_1 + b"\1"),
        (9, 2, X_1 + b"\3"),
        (9, 3, X_1 + b"\0\3" + bytes(60)),
        (10, 2, X_1 + divisor_record([7], [2])),
        (11, 3, three[:34] + divisor_record([0], [2]) + b"\xff"),
        (11, 1, divisor_record([0], [2]) + divisor_record([7], [2])),
        (14, 0, b"\0" * 4097),
        (14, 0, X_1 + b"\0" * 4095 + b"\xff"),
        (14, 0, X_1 * 2 + b"\0" * 4094 + b"\1"),
        (9, 4096, b"\0" * 4095 + b"\xff" + b"\0"),
        (8, 4096, b"\0" * 4095 + b"\2"),
    ):
        expect("batch", r.total_batch(CURVE_A, batch, out), ((number, place, 0, 0), out))
        expect("before 13", r.total_batch(CURVE_A, batch, b""), ((number, place, 0, 0), b""))
        expect("repeat", r.first_repeat(CURVE_A, batch), ((number, place, 0, 0, 0), None))
    full = b"\0" * 4095 + X_1
    expect_written("4,096 records", lambda out: r.total_batch(CURVE_A, full, out), X_1, (4096,))
    expect("4,096 records", r.first_repeat(CURVE_A, full), ((0, 0, 0, 1, 2), None))
    a, b, c = X_1, X6_3, X_6
    for batch, pair in (
        (a + b, (0, 0)),
        (a + b + b + a, (2, 3)),
        (a + b + c + a + b, (1, 3)),
        (a + a + a, (1, 2)),
        (b"\0" + a + b"\0", (1, 3)),
        (b"\0" + a, (0, 0)),
        (a + c, (1, 2)),
        (c + a, (1, 2)),
        (b + a + c + b, (2, 3)),
        (a + b + b + c, (2, 3)),
        (XX_1 + a + XX_6, (1, 3)),
        (a + XX_1, (0, 0)),
        (X1_0 + a, (0, 0)),
        (X1_0 + a + X1_0, (1, 3)),
    ):
        expect("repeat", r.first_repeat(CURVE_A, batch), ((0, 0, 0) + pair, None))
    for batch, pair in ((B_XXX_1 + B_X_10 + B_XXX_10, (1, 3)), (B_XXX_1 + B_X_10, (0, 0)), (B_X_10 + B_X_10 + B_XXX_1 + B_XXX_10, (1, 2))):
        expect("repeat in genus 3", r.first_repeat(CURVE_B, batch), ((0, 0, 0) + pair, None))
    # a letter's opposite has the other case, and 0 is its own
    for length in range(7):
        for word in itertools.product("aAbB0", repeat=length):
            pairs = [(j, i) for j in range(1, length + 1) for i in range(1, j) if word[i - 1].lower() == word[j - 1].lower()]
            j, i = min(pairs) if pairs else (0, 0)
            expect("least j, then least i", r.first_repeat_of(word, str.swapcase), (i, j))


def check_running_totals():
    expect("fresh", r.fresh_total(77), (0,) * 8 + (77,))
    taken, total = b"", r.fresh_total(77)
    for k, record in enumerate((X_1, X6_3, X_1, NEUTRAL, XX6X, X1_0, X_6, XX_1), start=1):
        expect("another pole", r.scan(tuple(total), CURVE_A, scan_record(k, record)), ((20, 0, 0) + tuple(total), None))
        (number, place, length, *total), _ = r.scan(tuple(total), CURVE_A, scan_record(77, record))
        taken += record
        written = r.total_batch(CURVE_A, taken, GUARD * 33)
        w = total[0]
        as_record = divisor_record(total[1 : 1 + w], total[4 : 4 + w])
        expect("scan %d" % k, (number, place, length, *total[7:]), (0, 0, 0, k, 77))
        expect("scan %d" % k, written, ((0, 0, len(as_record), k), as_record + GUARD * (33 - len(as_record))))
    good = (1, 0, 0, 0, 1, 0, 0)  # (x, 1)
    for count, number in ((4095, 0), (4096, 14), (4097, 15), (2**64 - 1, 15), (0, 0)):
        got, _ = r.scan(good + (count, 3), CURVE_A, scan_record(3, X_1))
        if number:
            expect("count %d" % count, got, (number, 0, 0) + good + (count, 3))
        else:
            expect("count %d" % count, got, (0, 0, 0, 2, 0, 0, 0, 1, 0, 0, count + 1, 3))
    for wrong in (
        (3, 0, 0, 0, 1, 0, 0),  # weight above g
        (4, 0, 0, 0, 0, 0, 0),
        (2**64 - 1, 0, 0, 0, 0, 0, 0),
        (0, 1, 0, 0, 0, 0, 0),  # a coefficient that isn't used
        (1, 0, 1, 0, 1, 0, 0),
        (1, 0, 0, 0, 1, 0, 2**63),
        (2, 0, 0, 1, 1, 0, 0),
        (2, 0, 0, 0, 1, 0, 7),
        (1, 7, 0, 0, 1, 0, 0),  # a number of p or more
        (1, 0, 0, 0, 8, 0, 0),
        (1, 0, 0, 0, 2, 0, 0),  # not valid
    ):
        for count in (0, 4096, 4097):
            for record in (X_1, b"", b"\xff", scan_record(3, X_1)):
                total = wrong + (count, 3)
                expect("15", r.scan(total, CURVE_A, record), ((15, 0, 0) + total, None))
    three = (3, 0, 0, 0, 1, 0, 0, 1, 0)  # (x³, 1) belongs to curve B
    expect("weight 3", r.scan(three, CURVE_B, scan_record(0, B_XXX_1)), ((0, 0, 0, 1, 0, 0, 0, 10, 0, 0, 2, 0), None))
    expect("15", r.scan(three, CURVE_A, scan_record(0, X_1)), ((15, 0, 0) + three, None))
    for name, total, record, number, place, after in POLE_SCANS:
        expect(name, r.scan(total, CURVE_A, record), ((number, place, 0) + (after or total), None))
    # every list of five scans for two poles and a third: each total is that of the pole's own records
    for poles in itertools.product((1, 2, 3), repeat=5):
        totals = {1: r.fresh_total(1), 2: r.fresh_total(2)}
        walk = list(zip(poles, (X_1, X6_3, XX_1, X1_0, XX6X)))
        for pole, record in walk:
            totals = {own: r.scan(total, CURVE_A, scan_record(pole, record))[0][3:] for own, total in totals.items()}
        for own, total in totals.items():
            records = [record for pole, record in walk if pole == own]
            (number, _, length, count), out = r.total_batch(CURVE_A, b"".join(records), GUARD * 33)
            w = total[0]
            expect("own records", divisor_record(total[1 : 1 + w], total[4 : 4 + w]), out[:length])
            expect("own records", (number, *total[7:]), (0, count, own))


def check_pole_files():
    """The tables by hand; reading undoes writing and writing reading; each file cut at every byte and grown, with every count; files of 4,096."""
    for name, pole, curve, records in POLE_FILES:
        file, batch = pole_file(pole, curve, records), b"".join(records)
        expect_written(name, lambda out: r.write_pole_file(pole, curve, batch, out), file)
        content = curve + batch
        expect_read(name, file, content, pole)
        got = r.read_pole_file(file, bytes(len(content)))
        expect(name + " and back", r.write_pole_file(got[0][3], got[1][: len(curve)], got[1][len(curve) :], bytes(len(file))), ((0, 0, len(file)), file))
        for n in range(len(file)):
            number = 1 if 9 <= n < 9 + len(curve) else 23
            for out in (b"", GUARD * len(content)):
                expect("%s cut at %d" % (name, n), r.read_pole_file(file[:n], out), ((number, 0, 0, 0), out))
        for more in (b"\0", b"\3", X_1, bytes(60)):
            expect(name + " grown", r.read_pole_file(file + more, b""), ((23, 0, 0, 0), b""))
        for count in (*range(8), 256, 4095, 4096, 4097, 65535):
            if count != len(records):
                expect("%s with %d" % (name, count), r.read_pole_file(pole_file(pole, curve, records, count=count), b""), ((23, 0, 0, 0), b""))
    for name, file, number, place in BROKEN_FILES:
        for out in (b"", GUARD * 300):
            expect(name, r.read_pole_file(file, out), ((number, place, 0, 0), out))
    full = [NEUTRAL] * 4095 + [X_1]
    file, batch = pole_file(9, CURVE_A, full), b"".join(full)
    expect_written("4,096", lambda out: r.write_pole_file(9, CURVE_A, batch, out), file)
    expect_read("4,096", file, CURVE_A + batch, 9)
    expect("4,097 written", r.write_pole_file(9, CURVE_A, batch + NEUTRAL, b""), ((14, 0, 0), b""))
    expect("4,097 read", r.read_pole_file(pole_file(9, CURVE_A, full + [NEUTRAL]), b""), ((23, 0, 0, 0), b""))
    expect("4,096 and one more", r.read_pole_file(file + NEUTRAL, b""), ((23, 0, 0, 0), b""))
    expect("a fault in the last", r.read_pole_file(pole_file(9, CURVE_A, full[:-1] + [X_2]), b""), ((11, 4096, 0, 0), b""))


def expect_read(name, file, content, pole):
    short = GUARD * (len(content) - 1)
    expect(name + ", short", r.read_pole_file(file, short), ((13, 0, 0, 0), short))
    for extra in (0, 1, 40):
        out = GUARD * (len(content) + extra)
        expect(name, r.read_pole_file(file, out), ((0, 0, len(content), pole), content + GUARD * extra))


def check_program():
    expect(
        "case P",
        r.program_text(CURVE_A, b"".join(CASE_P)),
        "count 3\nrepeat 1 3\ntotal 02 0000000000000004 0000000000000004 0000000000000000 0000000000000001\n",
    )
    expect("empty batch", r.program_text(CURVE_A, b""), "count 0\nrepeat none\ntotal 00\n")
    expect("digits", r.program_text(CURVE_B, B_X_10), "count 1\nrepeat none\ntotal 01 0000000000000000 000000000000000a\n")
    expect("W-205", r.program_text(CURVE_A, X_1 + X_6), "count 2\nrepeat 1 2\ntotal 00\n")
    full = b"\0" * 4096
    expect("4,096", r.program_text(CURVE_A, full), "count 4096\nrepeat 1 2\ntotal 00\n")
    expect("4,097", r.program_text(CURVE_A, full + b"\0"), "refused 14 0\n")
    expect("11", r.program_text(CURVE_A, X_1 + divisor_record([0], [2])), "refused 11 2\n")
    expect("8", r.program_text(CURVE_A, X_1 + X_1 + X_1[:5]), "refused 8 3\n")
    expect("1", r.program_text(b"", b""), "refused 1 0\n")
    long, longest = bytes(65537), bytes(65536)
    for curve, batch, number in (
        (None, None, 17), (None, long, 17), (None, b"", 17), (long, None, 16), (long, long, 16), (long, b"", 16),
        (b"", None, 17), (CURVE_A, None, 17), (b"", long, 16), (CURVE_A, long, 16), (longest, b"", 2),
        (CURVE_A, longest, 14), (b"", longest, 1),
    ):  # fmt: skip
        expect("files", r.program_text(curve, batch), "refused %d 0\n" % number)


# ---------------------------------------------------------------------------------------------------------
# Small curves, all of their divisors
# ---------------------------------------------------------------------------------------------------------


def points_over_extension(curve, k):
    """The number of points of y² = f(x) over the field of p^k elements, with the one at infinity."""
    p = curve.p
    elements = list(itertools.product(range(p), repeat=k))

    def multiplied(a, b, modulus):
        rest = [0] * (2 * k - 1)
        for i, j in itertools.product(range(k), repeat=2):
            rest[i + j] += a[i] * b[j]
        for top in range(2 * k - 2, k - 1, -1):
            for i in range(k):
                rest[top - k + i] -= rest[top] * modulus[i]
        return tuple(c % p for c in rest[:k])

    # An irreducible x^k + ...: for k = 2 and 3 one without a root.
    modulus = next(
        m for m in elements
        if k == 1 or all((x**k + sum(c * x**i for i, c in enumerate(m))) % p for x in range(p))
    )  # fmt: skip
    roots = {}
    for y in elements:
        square = multiplied(y, y, modulus)
        roots[square] = roots.get(square, 0) + 1
    points = 1
    for x in elements:
        value = (0,) * k
        for c in reversed(curve.f):
            value = multiplied(value, x, modulus)
            value = ((value[0] + c) % p,) + value[1:]
        points += roots.get(value, 0)
    return points


def group_order(curve):
    """From the numbers of points over the first g extensions: the L-polynomial at 1."""
    p, g = curve.p, curve.g
    s = [points_over_extension(curve, k) - p**k - 1 for k in range(1, g + 1)]
    a = [1]
    for k in range(1, g + 1):
        a.append(sum(s[i] * a[k - 1 - i] for i in range(k)) // k)
    return sum(a) + sum(a[i] * p ** (g - i) for i in range(g))


def counts_of(n):
    """Doublings and additions: there is a signed digit less than 3n has bits, and the nonzero ones stand where 3n and n differ."""
    return max(0, (3 * n).bit_length() - 2), max(0, bin(3 * n ^ n).count("1") - 1)


def check_signed_digits():
    """Every string of up to 10 digits without leading zeros and nonzero neighbours is the one of its weight; then larger numbers."""
    for length in range(11):
        for digits in itertools.product((-1, 0, 1), repeat=length):
            apart = all(not (one and other) for one, other in zip(digits, digits[1:]))
            weight = sum(digit << k for k, digit in enumerate(reversed(digits)))
            if apart and (length == 0 or digits[0] == 1):
                expect("signed digits of %d" % weight, tuple(r.signed_digits_of(weight)), digits)
    for n in (2**256 - 1, (2**257 - 2) // 3, (2**257 + 1) // 3, 2**255, 3**150, 7**80):
        digits = r.signed_digits_of(n)
        expect("%d by its digits" % n, sum(digit << k for k, digit in enumerate(reversed(digits))), n)
        expect("neighbours in %d" % n, any(one and other for one, other in zip(digits, digits[1:])), False)
        expect("counts of %d" % n, (len(digits) - 1, sum(map(abs, digits)) - 1), counts_of(n))
    expect("digits of AA..AA and the next", [len(r.signed_digits_of((2**257 - 2) // 3 + k)) for k in (0, 1)], [256, 257])


def check_small_curves():
    curves = [
        (2, 3, (1, 0, 0, 0, 0)), (2, 3, (0, 2, 0, 0, 0)), (2, 3, (1, 1, 0, 0, 1)), (2, 5, (0, 4, 0, 0, 0)),
        (2, 5, (1, 2, 0, 3, 3)), (2, 7, (1, 0, 0, 0, 0)), (3, 3, (1, 2, 0, 0, 0, 0, 0)), (3, 3, (0, 1, 1, 0, 0, 1, 1)),
        (3, 5, (0, 4, 0, 0, 0, 0, 1)),
    ]  # fmt: skip
    for g, p, stored in curves:
        name = "g = %d, p = %d, f = %s" % (g, p, stored)
        curve = r.read_curve(curve_record(g, p, stored))
        divisors = splits.all_divisors(curve)
        known = set(divisors)
        expect(name + ": number of valid divisors", len(divisors), group_order(curve))
        table, most_steps = {}, 0
        for a, b in itertools.product(divisors, repeat=2):
            table[a, b], steps = r.sum_and_steps(curve, a, b)
            most_steps = max(most_steps, steps)
        expect(name + ": sums are valid", all(s in known for s in table.values()), True)
        expect(name + ": at most g - 1 reductions", most_steps, g - 1)
        expect(name + ": order of two", all(table[a, b] == table[b, a] for a, b in table), True)
        expect(name + ": neutral", all(table[a, r.NEUTRAL] == a for a in divisors), True)
        inverse = all((s == r.NEUTRAL) == (b == r.opposite_of(curve, a)) for (a, b), s in table.items())
        expect(name + ": opposite and nothing else gives neutral", inverse, True)
        stride = 1 if len(divisors) < 40 else 7
        grouped = all(
            table[table[a, b], c] == table[a, table[b, c]]
            for a, b, c in itertools.product(divisors[::stride], divisors, divisors[::stride])
        )
        expect(name + ": grouping", grouped, True)
        pairs = list(table)[:: 1 if len(divisors) < 40 else 5]
        agree = all(ideals.sum_by_ideals(g, p, curve.f, a, b) == tuple(table[a, b]) for a, b in pairs)
        expect(name + ": sums by ideals", agree, True)
        order = len(divisors)
        expect(
            name + ": the group's order times a divisor",
            all(r.multiple_of(curve, a, order)[0] == r.NEUTRAL for a in divisors),
            True,
        )
        for n in range(20):
            for a in divisors[:: max(1, order // 10)]:
                multiple, doublings, additions = r.multiple_of(curve, a, n)
                expect(name + ": %d-fold" % n, multiple, r.total_of(curve, [a] * n))
                expect(name + ": counts", (doublings, additions), counts_of(n))
        check_any_triple(name, curve, divisors)
        check_turned_batches(name, curve, divisors)


def check_any_triple(name, curve, divisors):
    """ "Any triple s1, s2, s3 gives the same v on an accepted curve"."""
    p = curve.p
    step = max(1, len(divisors) // 12)
    same = True
    for a, b in itertools.product(divisors[::step], divisors[1::step]):
        w = r.plus(a.v, b.v, p)
        common, e1, e2 = r.greatest_common_divisor(a.u, b.u, p)
        d, c, s3 = r.greatest_common_divisor(common, w, p)
        s1, s2 = r.times(c, e1, p), r.times(c, e2, p)
        plain = r.composed_with(curve, a, b, d, s1, s2, s3)
        for k1, k2, k3 in (((1,), (), ()), ((), (2, 1), ()), ((), (), (1, 1)), ((0, 1), (1,), (2,))):
            # k1·(u2, -u1, 0) + k2·(w, 0, -u1) + k3·(0, w, -u2) changes the triple and not the sum d
            t1 = r.plus(s1, r.plus(r.times(k1, b.u, p), r.times(k2, w, p), p), p)
            t2 = r.plus(s2, r.minus(r.times(k3, w, p), r.times(k1, a.u, p), p), p)
            t3 = r.minus(s3, r.plus(r.times(k2, a.u, p), r.times(k3, b.u, p), p), p)
            same = same and r.composed_with(curve, a, b, d, t1, t2, t3) == plain
    expect(name + ": any triple", same, True)


def check_turned_batches(name, curve, divisors):
    """The total doesn't depend on the order of the batch."""
    step = max(1, len(divisors) // 5)
    few = divisors[1::step][:5]
    totals = {r.total_of(curve, order) for order in itertools.permutations(few)}
    expect(name + ": order of a batch", len(totals), 1)


def check_large_curves():
    """Sums by ideals again where numbers are large, on divisors grown from points."""
    for g, p, stored in (
        (2, 2147483647, [2147483646] * 5),
        (3, 2147483647, [2147483646] * 7),
        (2, 65537, [3, 1, 4, 1, 5]),
        (3, 11, [1, 0, 0, 0, 0, 0, 0]),
        (3, 13, [2, 7, 1, 8, 2, 8, 1]),
        (2, LARGEST, [LARGEST - 1] * 5),
        (3, LARGEST, [LARGEST - 1] * 7),
    ):
        curve = r.read_curve(curve_record(g, p, stored, witness=BY_LARGEST if p == LARGEST else None))
        points, x = [], 0
        while len(points) < 4 and x < p:
            value = sum(c * pow(x, i, p) for i, c in enumerate(curve.f)) % p
            y = next((y for y in range(1, min(p, 70000)) if y * y % p == value), None) if p < 70000 else None
            if p % 4 == 3:
                root = pow(value, (p + 1) // 4, p)
                y = root if root * root % p == value else None
            if y:
                points.append(r.Divisor((-x % p, 1), (y,)))
            x += 1
        grown = list(points)
        for k in range(30):
            a, b = grown[k % len(grown)], grown[-1 - k // 3]
            total, steps = r.sum_and_steps(curve, a, b)
            expect("large sum", ideals.sum_by_ideals(g, p, curve.f, a, b), tuple(total))
            expect("large sum is valid", r.divides_f_less_v_squared(curve, *total) and r.weight(total) <= g, True)
            expect("large sum, steps", steps <= g - 1, True)
            grown.append(total)


def main():
    for part in (
        check_examples,
        check_corners,
        check_order,
        check_witnesses,
        check_key_orders,
        check_splits,
        check_census,
        check_batches,
        check_running_totals,
        check_pole_files,
        check_program,
        check_signed_digits,
        check_small_curves,
        check_large_curves,
    ):
        before = held + len(failures)
        part()
        print("%-22s %6d checks" % (part.__name__, held + len(failures) - before))
    for failure in failures[:40]:
        print("FAILED " + failure)
    print("%d checks held, %d failed" % (held, len(failures)))
    return 1 if failures else 0


if __name__ == "__main__":
    sys.exit(main())
