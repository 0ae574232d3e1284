#!/usr/bin/env python3
"""first_errors.py: docs/proofs/first-errors.txt, where the prover refused each must-fail edit first, and its words there, cut short.

    python3 tools/make/first_errors.py LOG     LOG has what `rt ci`, or `rt must-fail CRATE ..` at the top of the repository, printed

An edit that has no line in the log keeps the one that it has; one that is gone loses it. A line is CRATE/NAME, FILE:LINE:COLUMN, and the words; a tab stands
between. rt itself cuts the words after some 160 letters.
"""
import glob
import os
import re
import sys

import made

RECORD = "docs/proofs/first-errors.txt"
LONGEST, LONGEST_TERM = 120, 40
REFUSED = re.compile(r"^rt: must-fail (\w+/\w+)\.edit: refused, as it must be(?: \(.*?\))?: (?:note: )?(?:\./)?(\S+?:\d+:\d+): (?:error: )?(.*)$", re.M)


def read_first_errors():
    """Place and words by the edit's name."""
    path = os.path.join(made.ROOT, RECORD)
    rows = [line.split("\t") for line in made.text(RECORD).splitlines()] if os.path.exists(path) else []
    return {edit: (place, words) for edit, place, words in rows}


def short(words):
    """The first sentence, up to what one of two terms has, or to where a term begins that is too long to be read or is cut, and no more than a line."""
    words = re.sub(r"(?<=\(expected\)).*", "", words)
    if words.count("`") % 2:
        words = words[: words.rindex("`")] + "…"
    plain = ""
    for k, part in enumerate(re.split("`", words)):
        if k % 2 and len(part) > LONGEST_TERM:
            plain += "…"
            break
        plain += "`%s`" % part if k % 2 else part
    plain = re.split(r"(?<=\w)\. (?=[A-Z])", re.sub(r"\s+", " ", plain))[0].strip(" .:")
    return plain if len(plain) <= LONGEST else plain[:LONGEST].rsplit(" ", 1)[0] + " …"


def main():
    if len(sys.argv) != 2:
        print("one argument: the file with what rt printed")
        return 2
    edits = {"%s/%s" % (p.split(os.sep)[-3], os.path.basename(p)[:-5]) for p in glob.glob(os.path.join(made.ROOT, "crates", "*", "must-fail", "*.edit"))}
    found = {edit: row for edit, row in read_first_errors().items() if edit in edits}
    with open(sys.argv[1], encoding="utf-8") as file:
        fresh = {edit: (place, short(words)) for edit, place, words in REFUSED.findall(file.read()) if edit in edits}
    found.update(fresh)
    made.settle({RECORD: made.lines("\t".join((edit,) + found[edit]) for edit in sorted(found))}, [])
    print("%d of %d edits have a line, %d from %s" % (len(found), len(edits), len(fresh), sys.argv[1]))
    return 0


if __name__ == "__main__":
    sys.exit(main())
