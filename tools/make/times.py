#!/usr/bin/env python3
"""times.py: docs/proofs/TIMES.md, what each crate's check took, from the times recorded in docs/proofs/check-times.txt.

    python3 tools/make/times.py                 writes the page
    python3 tools/make/times.py --check         writes nothing: the page must be what it would write

The record is of rattle-kit-5b, whose gate printed the seconds of each check; today's prints none. It has the words on the run in its first line, then a line
a crate, its name and its seconds, and for the edits of a crate CRATE/, their number and their seconds together.
"""
import sys

import made
from house import read_house

RECORD = "docs/proofs/check-times.txt"
WANTED = 35


def read_times():
    """The words on the run, seconds by crate, and number and seconds of the edits by crate."""
    words, *rows = made.text(RECORD).splitlines()
    rows = [row.split() for row in rows]
    return words, {row[0]: int(row[1]) for row in rows if len(row) == 2}, {row[0][:-1]: (int(row[1]), int(row[2])) for row in rows if len(row) == 3}


def page(families):
    words, checks, edits = read_times()
    there = [crate.name for family in families for crate in family.crates]
    over = sorted((name for name in there if checks.get(name, 0) > WANTED), key=lambda name: -checks[name])
    yield "# What the checks took"
    yield ""
    yield "Made from check-times.txt by `python3 tools/make/times.py`: times of the kit before, rattle-kit-5b, whose gate printed them."
    yield "Today's gate prints none, and what it passed once on a machine it doesn't prove again there."
    yield words
    yield "Seconds are those that the gate printed, two crates at a time on two cores; a crate's edits are each a check of it."
    yield "In sum %d s of proofs%s." % (sum(checks.values()), " and %d s of edits" % sum(s for _, s in edits.values()) if edits else "")
    yield "A check was to take %d s at the most; over it: %s." % (WANTED, ", ".join("`%s`" % name for name in over) or "none")
    for family in families:
        yield from ["", "## %s" % (family.name[0].upper() + family.name[1:]), ""]
        yield "| crate | seconds | edits | seconds of the edits |"
        yield "|---|---|---|---|"
        for crate in family.crates:
            number, seconds = edits.get(crate.name, ("", ""))
            yield "| `%s` | %s | %s | %s |" % (crate.name, checks.get(crate.name, "not recorded"), number, seconds)


def main():
    return made.settle({"docs/proofs/TIMES.md": made.lines(page(read_house()))}, sys.argv[1:])


if __name__ == "__main__":
    sys.exit(main())
