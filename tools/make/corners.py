#!/usr/bin/env python3
"""corners.py: makes the last part of what the program `test_vectors` reads, data/corners.a and data/corners.b, and of what it prints: every street
corner of document 01, with a star or without, run through the calls, one line each: a label and the answer.

    python3 tools/make/corners.py             writes the data; vectors.py writes the expected text, which ends with the corners'
    python3 tools/make/corners.py --check     writes nothing: the data must be what it would write, and the expected text end so
    --input PATH, --expected PATH        other files than crates/test_vectors/data/corners (in parts, corners.a and corners.b) and crates/test_vectors/stdout

The format is frames.py's, with a label before each frame. What document 01 says of a corner stands in corner_table.py;
reference.py's answer must agree with it or nothing is written.
"""
import argparse
import os
import sys

sys.path.append(os.path.join(os.path.dirname(os.path.abspath(__file__)), "..", "reference"))
import ideals
import reference as r
from corner_table import (
    BROKEN_FILES, BY_LARGEST, CASE_P, CASE_P_COUNT, CASE_P_REPEAT, CASE_P_TOTAL, CURVE_A, CURVES, DIVISORS, FLIPPED, KEYS, LARGEST, NEUTRAL, NEXT,
    ORDERS, POLE, POLE_FILES, POLE_SCANS, SCALARS, SPLITS, WITNESSED, X6_3, X_1, X_6, XX6X, XX_1, XX_6, each_example, power_and_1,
)  # fmt: skip
from frames import (
    ADD, CHECK_CURVE, CHECK_DIVISOR, CHECK_ORDER, DOUBLE, FIRST_REPEAT, GUARD, MULTIPLY, NEXT_DIVISOR, OPPOSITE, READ_POLE_FILE, REWRITE_CURVE,
    REWRITE_DIVISOR, SCAN, SPLIT, TOTAL_BATCH, WITH_OUTPUT, WRITE_POLE_FILE, Frame, answer, in_parts, label, part_paths, read_parts, text_of,
)  # fmt: skip
from records import curve_record, divisor_record, pole_file, scan_record

frames = []
labels = set()


def corner(name, frame, number, place=0, result=b"", more=()):
    """One line. number, place and result are document 01's; more are the counts and totals after the length."""
    assert name not in labels and " " not in name
    labels.add(name)
    fields, out = answer(frame)
    wanted_out = None
    if frame.operation in WITH_OUTPUT:
        wanted_out = result + bytes([GUARD]) * (frame.output - len(result))
    wanted = (number, place, len(result)) + tuple(more)
    if (fields, out) != (wanted, wanted_out):
        raise AssertionError("%s: %s %s, wanted %s %s" % (name, fields, out, wanted, wanted_out))
    frames.extend([label(name), frame])


def summed(name, curve, a, b, result):
    corner(name, Frame(ADD, curve, a, b, len(result) + 5), 0, 0, result)
    corner(name + "-turned", Frame(ADD, curve, b, a, len(result)), 0, 0, result)


def times(name, curve, a, n, result, counts):
    """The n-fold, by a multiple, which is refused 19 where it is neutral, by a batch of n records and by n scans."""
    multiply = Frame(MULTIPLY, curve, a, bytes([n]), len(result) + 3)
    if result == NEUTRAL:
        corner(name + "-multiply", multiply, 19, more=(0, 0))
    else:
        corner(name + "-multiply", multiply, 0, 0, result, counts)
    corner(name + "-batch", Frame(TOTAL_BATCH, curve, a * n, b"", len(result) + 1), 0, 0, result, (n,))
    total = r.fresh_total(n)
    for k in range(n):
        frame = Frame(SCAN, curve, scan_record(n, a), b"", 0, total)
        total = answer(frame)[0][3:]
        corner("%s-scan-%d" % (name, k + 1), frame, 0, 0, b"", total)
    w = total[0]
    assert divisor_record(total[1 : 1 + w], total[4 : 4 + w]) == result and total[7:] == (n, n)


def doubled(name, curve, a, result):
    corner(name + "-double", Frame(DOUBLE, curve, a, b"", len(result) + 2), 0, 0, result)
    corner(name + "-add", Frame(ADD, curve, a, a, len(result)), 0, 0, result)
    times(name, curve, a, 2, result, (1, 0))


def every_call(name, curve, a, number, place=0, second=X_1):
    """A refusal through every call. A divisor at fault stands first, then second, then as the batch's second."""
    total = r.flat_total(r.NEUTRAL, 3, POLE)
    if place == 0:
        corner(name + "-check-curve", Frame(CHECK_CURVE, curve), number)
        corner(name + "-rewrite-curve", Frame(REWRITE_CURVE, curve, b"", b"", 72), number)
    corner(name + "-check-divisor", Frame(CHECK_DIVISOR, curve, a), number, place)
    corner(name + "-rewrite-divisor", Frame(REWRITE_DIVISOR, curve, a, b"", 51), number, place)
    corner(name + "-add", Frame(ADD, curve, a, second, 49), number, place)
    corner(name + "-add-second", Frame(ADD, curve, second, a, 49), number, 2 * place)
    corner(name + "-double", Frame(DOUBLE, curve, a, b"", 49), number, place)
    corner(name + "-opposite", Frame(OPPOSITE, curve, a, b"", 49), number, place)
    corner(name + "-split", Frame(SPLIT, curve, a, b"", 50), number, place)
    corner(name + "-next", Frame(NEXT_DIVISOR, curve, a, b"", 49), number, place)
    corner(name + "-multiply", Frame(MULTIPLY, curve, a, b"\3", 49), number, place, more=(0, 0))
    corner(name + "-total", Frame(TOTAL_BATCH, curve, second + a, b"", 49), number, 2 * place, more=(0,))
    corner(name + "-repeat", Frame(FIRST_REPEAT, curve, second + second + a), number, 3 * place, more=(0, 0))
    corner(name + "-scan", Frame(SCAN, curve, scan_record(POLE, a), b"", 0, total), number, place, more=total)
    corner(name + "-write-file", Frame(WRITE_POLE_FILE, curve, second + a, b"", 200, pole=POLE), number, 2 * place)
    corner(name + "-read-file", Frame(READ_POLE_FILE, b"", pole_file(POLE, curve, (second, a)), b"", 200), number, 2 * place, more=(0,))


def taken_curve(name, curve):
    corner(name + "-check-curve", Frame(CHECK_CURVE, curve), 0)
    corner(name + "-rewrite-curve", Frame(REWRITE_CURVE, curve, b"", b"", len(curve) + 2), 0, 0, curve)
    corner(name + "-neutral", Frame(DOUBLE, curve, NEUTRAL, b"", 1), 0, 0, NEUTRAL)


def taken_divisor(name, a):
    corner(name + "-check", Frame(CHECK_DIVISOR, CURVE_A, a), 0)
    corner(name + "-rewrite", Frame(REWRITE_DIVISOR, CURVE_A, a, b"", len(a) + 2), 0, 0, a)


def put_sums():
    each_example(summed, doubled, times)


def put_curves():
    for name, curve, number in CURVES:
        if number:
            every_call(name, curve, X_1, number)
        else:
            taken_curve(name, curve)
    for p in (3, 2147483647):
        curve = power_and_1(2, p)
        corner("p=%d-cancel" % p, Frame(ADD, curve, X_1, divisor_record([0], [p - 1]), 9), 0, 0, NEUTRAL)
        corner("p=%d-double" % p, Frame(DOUBLE, curve, X_1, b"", 33), 0, 0, XX_1)


THROUGH_EVERY_CALL = ("base-1", "k=0")


def put_witnessed():
    """W-201: curve records of version 2; the sums of (x, 1) are the same on every x^(2g+1) + 1."""
    for name, curve, number in WITNESSED:
        if number == 0:
            taken_curve("v2-" + name, curve)
        elif name in THROUGH_EVERY_CALL:
            every_call("v2-" + name, curve, X_1, number)
        else:
            corner("v2-" + name, Frame(REWRITE_CURVE, curve, b"", b"", 199), number)
    for g in (2, 3):
        curve = power_and_1(g, LARGEST, BY_LARGEST)
        corner("v2-genus-%d-cancel" % g, Frame(ADD, curve, X_1, divisor_record([0], [LARGEST - 1]), 9), 0, 0, NEUTRAL)
        corner("v2-genus-%d-double" % g, Frame(DOUBLE, curve, X_1, b"", 33), 0, 0, XX_1)
        corner("v2-genus-%d-room" % g, Frame(REWRITE_CURVE, curve, b"", b"", len(curve) - 1), 13)


def put_bounds():
    for name, record, number in DIVISORS:
        if number:
            every_call(name, CURVE_A, record, number, 1)
        else:
            taken_divisor(name, record)
    for name, scalar, number, result, counts in SCALARS:
        corner(name, Frame(MULTIPLY, CURVE_A, X_1, scalar, 40), number, 0, result, counts)
    for name, curve, a, scalar, output, number in KEYS:
        corner(name, Frame(MULTIPLY, curve, a, scalar, output), number, more=(0, 0))
    for name, frame, result, more in (
        ("add", Frame(ADD, CURVE_A, X_1, X6_3), XX6X, ()),
        ("double", Frame(DOUBLE, CURVE_A, X_1), XX_1, ()),
        ("opposite", Frame(OPPOSITE, CURVE_A, XX_1), XX_6, ()),
        ("multiply", Frame(MULTIPLY, CURVE_A, X_1, b"\3"), XX_6, (2, 1)),
        ("total", Frame(TOTAL_BATCH, CURVE_A, b"".join(CASE_P)), CASE_P_TOTAL, (CASE_P_COUNT,)),
        ("rewrite", Frame(REWRITE_DIVISOR, CURVE_A, XX6X), XX6X, ()),
    ):
        corner("output-32-" + name, frame._replace(output=32), 13, more=(0,) * len(more))
        corner("output-33-" + name, frame._replace(output=33), 0, 0, result, more)
    corner("output-0", Frame(ADD, CURVE_A, X_1, X_6, 0), 13)
    corner("output-1", Frame(ADD, CURVE_A, X_1, X_6, 1), 0, 0, NEUTRAL)


def put_case_p():
    batch = b"".join(CASE_P)
    corner("P-total", Frame(TOTAL_BATCH, CURVE_A, batch, b"", 34), 0, 0, CASE_P_TOTAL, (CASE_P_COUNT,))
    corner("P-repeat", Frame(FIRST_REPEAT, CURVE_A, batch), 0, more=CASE_P_REPEAT)
    total = r.fresh_total(POLE)
    totals = ((1, 0, 0, 0, 1, 0, 0, 1, POLE), (2, 0, 6, 0, 1, 2, 0, 2, POLE), (2, 4, 4, 0, 0, 1, 0, 3, POLE))
    for k, (record, after) in enumerate(zip(CASE_P, totals), start=1):
        corner("P-scan-%d" % k, Frame(SCAN, CURVE_A, scan_record(POLE, record), b"", 0, total), 0, more=after)
        total = after
    corner("empty-batch-total", Frame(TOTAL_BATCH, CURVE_A, b"", b"", 4), 0, 0, NEUTRAL, (0,))
    corner("empty-batch-repeat", Frame(FIRST_REPEAT, CURVE_A, b""), 0, more=(0, 0))


def put_flipped():
    for name, curve, batch, pair in FLIPPED:
        corner(name, Frame(FIRST_REPEAT, curve, b"".join(batch)), 0, more=pair)


def put_orders():
    for name, curve, a, order, primes, number in ORDERS:
        corner(name, Frame(CHECK_ORDER, curve, a, order, primes=primes), number)


def put_splits():
    for name, curve, a, parts in SPLITS:
        if parts is None:
            corner(name, Frame(SPLIT, curve, a, b"", 50), 26)
            corner(name + "-no-output", Frame(SPLIT, curve, a), 26)
        else:
            result = b"".join(parts)
            corner(name, Frame(SPLIT, curve, a, b"", len(result) + 3), 0, 0, result)
            corner(name + "-room", Frame(SPLIT, curve, a, b"", len(result)), 0, 0, result)
            corner(name + "-no-room", Frame(SPLIT, curve, a, b"", len(result) - 1), 13)
            summed(name + "-back", curve, *parts, a)


def put_next():
    for name, curve, a, after in NEXT:
        if isinstance(after, int):
            corner(name, Frame(NEXT_DIVISOR, curve, a, b"", 49), after)
            corner(name + "-no-output", Frame(NEXT_DIVISOR, curve, a), after)
        else:
            corner(name, Frame(NEXT_DIVISOR, curve, a, b"", len(after) + 2), 0, 0, after)
            corner(name + "-no-room", Frame(NEXT_DIVISOR, curve, a, b"", len(after) - 1), 13)


def put_poles():
    """W-209: scans for one pole among others, pole files written, read and refused."""
    for name, total, record, number, place, after in POLE_SCANS:
        corner(name, Frame(SCAN, CURVE_A, record, b"", 0, total), number, place, more=after or total)
    for name, pole, curve, records in POLE_FILES:
        batch, file = b"".join(records), pole_file(pole, curve, records)
        content = curve + batch
        write = Frame(WRITE_POLE_FILE, curve, batch, pole=pole)
        corner(name + "-written", write._replace(output=len(file) + 3), 0, 0, file)
        corner(name + "-written-no-room", write._replace(output=len(file) - 1), 13)
        corner(name, Frame(READ_POLE_FILE, b"", file, b"", len(content)), 0, 0, content, (pole,))
        corner(name + "-no-room", Frame(READ_POLE_FILE, b"", file, b"", len(content) - 1), 13, more=(0,))
    for name, file, number, place in BROKEN_FILES:
        corner(name, Frame(READ_POLE_FILE, b"", file, b"", 4), number, place, more=(0,))


def put_slips():
    """ "Slips a fitter would make", those that the corners above don't show: two reductions in genus 3, f_6 ≠ 0 with
    p = 7. The sums' results come from ideals.py."""
    for name, g, p, stored in (
        ("slip-two-reductions", 3, 11, (1, 0, 0, 0, 0, 0, 0)),
        ("slip-f6-and-p=7", 3, 7, (1, 1, 0, 0, 0, 0, 3)),
    ):
        curve_bytes = curve_record(g, p, stored)
        curve = r.read_curve(curve_bytes)
        assert stored[6] or p == 11
        taken_curve(name, curve_bytes)
        points = [
            r.Divisor((-x % p, 1), (y,)) for x in range(p) for y in range(1, p)
            if (y * y - sum(c * x**i for i, c in enumerate(curve.f))) % p == 0 and y <= p // 2
        ]  # fmt: skip
        a, found = r.total_of(curve, points[:3]), 0
        assert r.weight(a) == 3
        for n in range(2, 40):
            b = r.multiple_of(curve, r.sum_of(curve, points[0], points[-1]), n)[0]
            if r.sum_and_steps(curve, a, b)[1] == 2 and found < 3:
                found += 1
                result = r.write_divisor(r.Divisor(*ideals.sum_by_ideals(g, p, curve.f, a, b)))
                summed("%s-%d" % (name, found), curve_bytes, r.write_divisor(a), r.write_divisor(b), result)
        assert found == 3


MOST_PARTS = 2  # that the program reads


def made():
    """The data in parts, and the text that the corners are answered by."""
    if not frames:
        for put in (put_sums, put_curves, put_witnessed, put_bounds, put_case_p, put_flipped, put_orders, put_slips, put_splits, put_next, put_poles):
            put()
    lines = list(map(text_of, frames))
    parts = in_parts(frames, lines)
    assert len(parts) <= MOST_PARTS
    return parts, "".join(lines)


def main():
    parser = argparse.ArgumentParser(description="makes or checks the street corners", epilog="see the head of the file")
    parser.add_argument("--check", action="store_true")
    root = os.path.join(os.path.dirname(os.path.abspath(__file__)), "..", "..", "crates", "test_vectors")
    parser.add_argument("--input", default=os.path.normpath(os.path.join(root, "data", "corners")))
    parser.add_argument("--expected", default=os.path.normpath(os.path.join(root, "stdout")))
    options = parser.parse_args()
    parts, text = made()
    data = b"".join(parts)
    wrong = 0
    if options.check:
        if read_parts(options.input) != data:
            print("%s.a and on aren't what they should be" % options.input)
            wrong = 1
        with open(options.expected, encoding="ascii") as file:
            if not file.read().endswith("\n" + text):
                print("%s doesn't end as it should" % options.expected)
                wrong = 1
    else:
        for path, part in zip(part_paths(options.input, len(parts)), parts):
            os.makedirs(os.path.dirname(os.path.abspath(path)), exist_ok=True)
            with open(path, "wb") as file:
                file.write(part)
    print("%d corners, %d bytes of input, %d bytes of expected text" % (len(labels), len(data), len(text)))
    return wrong


if __name__ == "__main__":
    sys.exit(main())
