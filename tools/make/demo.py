#!/usr/bin/env python3
"""demo.py: makes the folders of demo/, each with a `curve` and a `batch` for bin/tally; two-poles has pole files and scans instead.

    python3 tools/make/demo.py             writes them
    python3 tools/make/demo.py --check     writes nothing: they must be what it would write

case-p is document 01's own. street-with-a-repeat has 40 meters on a curve of genus 3 modulo the largest prime, and meter 7 again as the
41st. street-with-a-flipped-meter has the same 40, and meter 12 again as the 41st, with its sign turned. damaged-list is the first list with
one bit turned in the last number of record 23. street-of-the-next-meters has 40 meters of genus 2 modulo 2^61 - 1, whose curve record is of version 2,
and meter 31 again as the 41st.

two-poles has 30 meters of genus 2 modulo 2^61 - 1 that hang on two poles. `pole-40101` and `pole-40102` are their pole files; `scans` is the walk along the
street, poles mixed: each scan behind its length in 2 bytes. `totals` says what either way comes to: three lines for each pole, its number, its count of
meters and their total, as document 01 prints them.
"""
import os
import sys

sys.path.append(os.path.join(os.path.dirname(os.path.abspath(__file__)), "..", "reference"))
import made
import reference
from streets import CASE_P, CURVE_A, CURVE_M, CURVE_W, flipped, meters

POLES = 40101, 40102


def in_bytes(number, length):
    return number.to_bytes(length, "big")


def pole_file(pole, curve, records):
    """W-209: "three letters `HJP`, 16-bit version 1, pole number, a curve record, a 16-bit count up to 4,096, then the divisor records"."""
    return b"HJP" + in_bytes(1, 2) + in_bytes(pole, 4) + curve + in_bytes(len(records), 2) + b"".join(records)


def scan(pole, record):
    """W-209: the pole's number "stands in 4 bytes before the divisor record"."""
    return in_bytes(pole, 4) + record


def total_lines(pole, curve, records):
    (_, _, length, count), out = reference.total_batch(curve, b"".join(records), bytes(49))
    return "pole %d\ncount %d\ntotal %s\n" % (pole, count, reference.spaced_record(out[:length]))


def two_poles():
    """The street's sides don't take turns: every third meter, and one more in seven, hangs on the second pole."""
    walk = [(POLES[i % 3 == 2 or i % 7 == 3], record) for i, record in enumerate(meters(CURVE_W, 30, 2, start=1000))]
    hanging = [(pole, [record for on, record in walk if on == pole]) for pole in POLES]
    parts = {"pole-%d" % pole: pole_file(pole, CURVE_W, records) for pole, records in hanging}
    parts["curve"] = CURVE_W
    parts["scans"] = b"".join(in_bytes(len(s), 2) + s for s in (scan(pole, record) for pole, record in walk))
    parts["totals"] = "".join(total_lines(pole, CURVE_W, records) for pole, records in hanging).encode()
    return parts


def for_tally(curve, batch):
    return {"curve": curve, "batch": batch}


def folders():
    street = meters(CURVE_M, 40, 3)
    street.append(street[6])
    damaged = list(street)
    damaged[22] = damaged[22][:-1] + bytes([damaged[22][-1] ^ 1])
    yield "case-p", for_tally(CURVE_A, CASE_P)
    yield "street-with-a-repeat", for_tally(CURVE_M, b"".join(street))
    yield "street-with-a-flipped-meter", for_tally(CURVE_M, b"".join(street[:40] + [flipped(CURVE_M, street[11])]))
    yield "damaged-list", for_tally(CURVE_M, b"".join(damaged))
    street = meters(CURVE_W, 40, 2)
    yield "street-of-the-next-meters", for_tally(CURVE_W, b"".join(street + street[30:31]))
    yield "two-poles", two_poles()


def main():
    return made.settle({"demo/%s/%s" % (name, part): content for name, parts in folders() for part, content in parts.items()}, sys.argv[1:])


if __name__ == "__main__":
    sys.exit(main())
