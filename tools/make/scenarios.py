#!/usr/bin/env python3
"""scenarios.py: makes the files, the arguments and the expected text of the programs `test_tally` and `test_census`, and those of `census`.
`test_tally` has a folder for each case of the program `tally`, with its `curve` and its `batch` or without, and what the program prints for
each after a line with the two paths; `test_census` has a curve for each case of the program `census`, and what that prints after the path.

    python3 tools/make/scenarios.py             writes data, args and stdout of crates/test_tally and crates/test_census, data and stdout of crates/census
    python3 tools/make/scenarios.py --check     writes nothing: all of it must be what it would write

What a folder prints is reference.py's answer for that folder, read from the disk; what a training curve prints, census.py's, that tries every
pair. Where the documents give the number or the lines, they are written out here too and must agree.
"""
import os
import shutil
import sys
import tempfile

sys.path.append(os.path.join(os.path.dirname(os.path.abspath(__file__)), "..", "reference"))
import census
import reference
from records import curve_record, divisor_record
from streets import (
    CASE_P, CURVE_A, CURVE_B, CURVE_L, CURVE_M, CURVE_V, CURVE_W, NEUTRAL, OF_VERSION_2, WITNESS, X1_0, X6_3, X_1, X_2, X_6, flipped, meters,
    points,
)  # fmt: skip

MISSING, DIRECTORY = None, "directory"
P_LINES = "count 3\nrepeat 1 3\ntotal 02 %016x %016x %016x %016x\n" % (4, 4, 0, 1)
HOME = os.path.normpath(os.path.join(os.path.dirname(os.path.abspath(__file__)), "..", "..", "crates"))

scenarios = []  # name, curve, batch, what the document says of it: a beginning of the text
censuses = []  # name, curve, what the documents say of it: all of a refusal, or how many divisors there are, or None


def scenario(name, curve, batch, says):
    assert name not in [other[0] for other in scenarios] and len(name) <= 40
    scenarios.append((name, curve, batch, says))


def refused(name, curve, batch, number, place=0):
    scenario(name, curve, batch, "refused %d %d\n" % (number, place))


def put_files():
    long = bytes(65537)
    refused("no-curve", MISSING, CASE_P, 17)
    refused("no-batch", CURVE_A, MISSING, 17)
    refused("no-files", MISSING, MISSING, 17)
    refused("curve-is-a-directory", DIRECTORY, CASE_P, 17)
    refused("batch-is-a-directory", CURVE_A, DIRECTORY, 17)
    refused("curve-too-long", CURVE_A + long[len(CURVE_A) :], CASE_P, 16)
    refused("batch-too-long", CURVE_A, long, 16)
    refused("curve-too-long-no-batch", long, MISSING, 16)
    refused("no-curve-batch-too-long", MISSING, long, 17)
    refused("wrong-curve-no-batch", b"", MISSING, 17)
    refused("wrong-curve-batch-too-long", b"", long, 16)
    refused("curve-of-65536", CURVE_A + long[len(CURVE_A) : -1], CASE_P, 1)
    refused("batch-of-65536-neutrals", CURVE_A, long[:-1], 14)
    full = list(zip(range(3840), points(CURVE_L)))
    whole = b"".join(record for _, record in full) + NEUTRAL * 256
    assert len(whole) == 65536
    scenario("batch-of-65536-and-4096", CURVE_L, whole, "count 4096\nrepeat 3841 3842\ntotal ")
    refused("empty-curve", b"", CASE_P, 1)
    scenario("empty-batch", CURVE_A, b"", "count 0\nrepeat none\ntotal 00\n")


def put_curves():
    f = [1, 0, 0, 0, 0]
    refused("curve-of-5", CURVE_A[:5], CASE_P, 1)
    refused("curve-cut", CURVE_A[:-1], CASE_P, 1)
    refused("curve-with-one-more", CURVE_A + b"\0", CASE_P, 1)
    refused("curve-of-the-other-length", CURVE_B[:54], CASE_P, 1)
    refused("wrong-mark", curve_record(2, 7, f, mark=b"HJD"), CASE_P, 2)
    refused("wrong-version", curve_record(2, 7, f, version=3), CASE_P, 3)
    refused("genus-4", curve_record(4, 7, f), CASE_P, 4)
    refused("p-9", curve_record(2, 9, f), CASE_P, 5)
    refused("p-2", curve_record(2, 2, f), CASE_P, 5)
    refused("p-past-the-limit", curve_record(2, 2147483648, f), CASE_P, 5)
    refused("f-of-p", curve_record(2, 7, [7, 0, 0, 0, 0]), CASE_P, 6)
    refused("repeated-factor", curve_record(2, 5, f), CASE_P, 7)
    refused("wrong-curve-wrong-batch", curve_record(2, 5, f), b"\x09", 7)


def put_witnesses():
    """Curve records of version 2."""
    f, by_7 = [1, 0, 0, 0, 0], (3, (2, 3))
    scenario("case-p-with-a-witness", curve_record(2, 7, f, witness=by_7), CASE_P, P_LINES)
    refused("version-3-with-a-witness", curve_record(2, 7, f, version=3, witness=by_7), CASE_P, 3)
    refused("version-2-without-a-witness", curve_record(2, 7, f, version=2), CASE_P, 1)
    refused("witness-cut", CURVE_W[:-1], CASE_P, 1)
    refused("witness-with-one-more", CURVE_W + b"\0", CASE_P, 1)
    refused("witness-of-none", curve_record(2, 8, f, witness=(3, ())), CASE_P, 18)
    refused("witness-of-16", curve_record(2, 8, f, witness=by_7, k=16), CASE_P, 18)
    refused("witness-for-8", curve_record(2, 8, f, witness=by_7), CASE_P, 5)
    refused("witness-past-the-limit", curve_record(2, OF_VERSION_2 + 1, f, witness=WITNESS), CASE_P, 5)
    refused("witness-for-9", curve_record(2, 9, f, witness=(8, (2,))), CASE_P, 18)
    refused("witness-for-561", curve_record(2, 561, f, witness=(2, (2, 5, 7))), CASE_P, 18)
    refused("witness-lists-6", curve_record(2, 7, f, witness=(3, (6,))), CASE_P, 18)
    refused("witness-of-a-lower-order", curve_record(2, OF_VERSION_2, f, witness=(37 * 37, WITNESS[1])), CASE_P, 18)
    refused("wrong-witness-wrong-f-wrong-batch", curve_record(2, 7, [7] * 5, witness=(2, (2, 3))), b"\x09", 18)
    refused("good-witness-f-of-p", curve_record(2, 7, [7, 0, 0, 0, 0], witness=by_7), CASE_P, 6)
    refused("good-witness-repeated-factor", curve_record(2, 5, f, witness=(2, (2,))), CASE_P, 7)
    refused("good-witness-not-on-the-curve", CURVE_W, X_1, 11, 1)


def put_batches():
    refused("cut-record", CURVE_A, CASE_P[:-1], 8, 3)
    refused("weight-above-g", CURVE_A, X_1 + b"\x03", 9, 2)
    refused("coefficient-7", CURVE_A, divisor_record([7], [1]), 10, 1)
    refused("not-on-the-curve", CURVE_A, X_1 + X6_3 + X_2, 11, 3)
    refused("first-fault-wins", CURVE_A, X_2 + b"\x09", 11, 1)
    refused("4097-neutrals", CURVE_A, NEUTRAL * 4097, 14)
    refused("4096-and-a-wrong-byte", CURVE_A, NEUTRAL * 4096 + b"\xff", 14)
    refused("fault-at-4096", CURVE_A, NEUTRAL * 4095 + b"\xff", 9, 4096)
    scenario("4096-neutrals", CURVE_A, NEUTRAL * 4096, "count 4096\nrepeat 1 2\ntotal 00\n")
    scenario("one-neutral", CURVE_A, NEUTRAL, "count 1\nrepeat none\ntotal 00\n")
    scenario("flipped-sign", CURVE_A, X_1 + X_6, "count 2\nrepeat 1 2\ntotal 00\n")
    scenario("flipped-then-equal", CURVE_A, X6_3 + X_1 + X_6 + X6_3, "count 4\nrepeat 2 3\n")
    scenario("equal-then-flipped", CURVE_A, X_1 + X6_3 + X6_3 + X_6, "count 4\nrepeat 2 3\n")
    scenario("own-opposite", CURVE_A, X1_0 + X_1 + NEUTRAL, "count 3\nrepeat none\ntotal 02 ")
    scenario("least-j", CURVE_A, X_1 + X6_3 + NEUTRAL + X6_3 + X_1, "count 5\nrepeat 2 4\n")
    scenario("least-i", CURVE_A, X6_3 + X_1 + X_1 + X_1, "count 4\nrepeat 2 3\n")
    scenario("weight-1", CURVE_A, X_1, "count 1\nrepeat none\ntotal 01 " + "0" * 16 + " " + "0" * 15 + "1\n")


def put_streets():
    for name, curve, weight in (("two", CURVE_L, 2), ("three", CURVE_M, 3), ("new-two", CURVE_W, 2), ("new-three", CURVE_V, 3)):
        street = meters(curve, 100, weight)
        scenario("street-of-" + name, curve, b"".join(street), "count 100\nrepeat none\ntotal 0%d " % weight)
        scenario("street-of-%s-with-a-repeat" % name, curve, b"".join(street + street[41:42]), "count 101\nrepeat 42 101\n")
        turned = street + [flipped(curve, street[41]), street[6]]
        scenario("street-of-%s-with-a-flipped-meter" % name, curve, b"".join(turned), "count 102\nrepeat 42 101\n")


def counted(name, curve, divisors=None):
    assert name not in [other[0] for other in censuses] and len(name) <= 40
    censuses.append((name, curve, divisors))


def uncounted(name, curve, number):
    counted(name, curve, "refused %d 0\n" % number)


def put_uncounted():
    """No census: the file, the curve, then p over 13."""
    f, by_17 = [1, 0, 0, 0, 0], (3, (2,))
    uncounted("no-file", MISSING, 17)
    uncounted("directory", DIRECTORY, 17)
    uncounted("too-long", CURVE_A + bytes(65537 - len(CURVE_A)), 16)
    uncounted("of-65536", CURVE_A + bytes(65536 - len(CURVE_A)), 1)
    uncounted("empty", b"", 1)
    uncounted("of-5", CURVE_A[:5], 1)
    uncounted("cut", CURVE_A[:-1], 1)
    uncounted("wrong-mark", curve_record(2, 7, f, mark=b"HJD"), 2)
    uncounted("wrong-version", curve_record(2, 7, f, version=3), 3)
    uncounted("genus-4", curve_record(4, 7, f), 4)
    uncounted("p-9", curve_record(2, 9, f), 5)
    uncounted("f-of-p", curve_record(2, 7, [7, 0, 0, 0, 0]), 6)
    uncounted("repeated-factor", curve_record(2, 5, f), 7)
    uncounted("wrong-witness", curve_record(2, 7, f, witness=(2, (2, 3))), 18)
    uncounted("p-17", curve_record(2, 17, f), 25)
    uncounted("p-17-of-genus-3", curve_record(3, 17, f + [0, 0]), 25)
    uncounted("p-17-with-a-witness", curve_record(2, 17, f, witness=by_17), 25)
    uncounted("p-17-f-of-p", curve_record(2, 17, [17, 0, 0, 0, 0]), 6)
    uncounted("p-17-repeated-factor", curve_record(2, 17, [0, 0, 1, 0, 0]), 7)
    uncounted("largest-p", CURVE_L, 25)


def put_counted():
    """Training curves. Of x^5 + 1, where p is 2 or 3 modulo 5, there are p² + 1 divisors, and of x^7 + 1, where p is 3 or 5 modulo 7, p³ + 1."""
    five, seven = [1, 0, 0, 0, 0], [1, 0, 0, 0, 0, 0, 0]
    counted("curve-a", CURVE_A, 50)
    counted("curve-a-with-a-witness", curve_record(2, 7, five, witness=(3, (2, 3))), 50)
    counted("curve-b", CURVE_B)
    counted("p-3", curve_record(2, 3, five), 10)
    counted("p-3-of-genus-3", curve_record(3, 3, seven), 28)
    counted("p-5", curve_record(2, 5, [1, 1, 0, 0, 0]))
    counted("p-5-of-genus-3", curve_record(3, 5, seven), 126)
    counted("p-5-with-f6", curve_record(3, 5, [1, 2, 0, 0, 0, 0, 3]))
    counted("p-7-of-genus-3", curve_record(3, 7, [1, 6, 0, 0, 0, 0, 0]))
    counted("p-11", curve_record(2, 11, [3, 1, 0, 0, 4]))
    counted("p-13", curve_record(2, 13, five), 170)
    counted("p-13-with-a-witness", curve_record(2, 13, five, witness=(2, (2, 3))), 170)


def put(folder, name, content):
    path = os.path.join(folder, name)
    if content is DIRECTORY:
        os.mkdir(path)
        content, path = b"", os.path.join(path, "nothing")
    if content is not MISSING:
        with open(path, "wb") as file:
            file.write(content)


def write_all(home, texts):
    os.makedirs(home, exist_ok=True)
    for name, content in texts.items():
        with open(os.path.join(home, name), "w") as file:
            file.write(content)


def write_scenarios(home):
    """All of it below an empty folder."""
    text = ""
    for name, curve, batch, says in scenarios:
        folder = os.path.join(home, "data", name)
        os.makedirs(folder)
        put(folder, "curve", curve)
        put(folder, "batch", batch)
        if curve is MISSING and batch is MISSING:
            put(folder, "nothing", b"")
        printed = reference.program_text(*(reference.file_content(os.path.join(folder, part)) for part in ("curve", "batch")))
        if not printed.startswith(says):
            raise AssertionError("%s: %r, and document 01 has %r" % (name, printed, says))
        text += "%s/curve %s/batch\n" % (name, name) + printed
    args = "".join("%s/curve\n%s/batch\n" % (name, name) for name, _, _, _ in scenarios)
    write_all(home, {"args": args, "stdout": text})


def census_text(path):
    try:
        curve = reference.read_training_file(reference.file_content(path))
    except reference.Refused as refusal:
        return reference.refused_line(refusal)
    return census.text_of(curve.g, curve.p, curve.f)


def write_censuses(home):
    data, text = os.path.join(home, "data"), ""
    os.makedirs(data)
    for name, curve, says in censuses:
        put(data, name, curve)
        printed = census_text(os.path.join(data, name))
        agree = printed.startswith("00\n") if says is None else says in (printed, printed.count("\n"))
        if not agree:
            raise AssertionError("%s: %d lines, and the documents have %r" % (name, printed.count("\n"), says))
        text += name + "\n" + printed
    write_all(home, {"args": "".join(name + "\n" for name, _, _ in censuses), "stdout": text})


def write_census(home):
    """The program itself, on curve A."""
    os.makedirs(os.path.join(home, "data"))
    put(os.path.join(home, "data"), "curve", CURVE_A)
    write_all(home, {"stdout": census_text(os.path.join(home, "data", "curve"))})


MADE = {"test_tally": write_scenarios, "test_census": write_censuses, "census": write_census}


def content_of(home):
    """What is made of a crate, by path."""
    found = {}
    made = [os.path.join(home, name) for name in ("args", "stdout")]
    for folder, _, files in os.walk(os.path.join(home, "data")):
        made += [os.path.join(folder, name) for name in files]
    for path in filter(os.path.exists, made):
        with open(path, "rb") as file:
            found[os.path.relpath(path, home)] = file.read()
    return found


def main():
    scenario("case-p", CURVE_A, CASE_P, P_LINES)
    for each in (put_files, put_curves, put_witnesses, put_batches, put_streets, put_uncounted, put_counted):
        each()
    wrong = []
    for crate, write in MADE.items():
        home = os.path.join(HOME, crate)
        with tempfile.TemporaryDirectory() as fresh:
            write(fresh)
            if sys.argv[1:] != ["--check"]:
                shutil.rmtree(os.path.join(home, "data"), ignore_errors=True)
                shutil.copytree(fresh, home, dirs_exist_ok=True)
            elif content_of(fresh) != content_of(home):
                wrong.append(crate)
    for crate in wrong:
        print("crates/%s isn't what it should be" % crate)
    if not wrong:
        print("%d scenarios of tally, %d of census%s" % (len(scenarios), len(censuses), ", as they should be" if sys.argv[1:] == ["--check"] else ""))
    return int(bool(wrong))


if __name__ == "__main__":
    sys.exit(main())
