#!/usr/bin/env python3
"""contracts.py: docs/proofs/CONTRACTS.md, every public function with its `requires` and `ensures`, every conversion with its law, crate by crate in the order
of crates.txt.

    python3 tools/make/contracts.py             writes it
    python3 tools/make/contracts.py --check     writes nothing: it must be what it would write
"""
import itertools
import sys

import made
from house import read_house
from sources import code_of, conversions_in, functions_in, wrapped

HEAD = """# The contracts

Made from src/ of every crate by `python3 tools/make/contracts.py`.
Each public function stands with its comment, what it requires and what it ensures, as the code has them; long lines are broken.
Each conversion by `From` or `TryFrom` stands with its law, of what is given (the first name) and what comes out of it (the second).
What a function has no `requires` for, it does for every value of its types.
`result` is what is answered; what a `&` lends is `x.now`, what a `&mut` lends is `x.old` as it was handed in and `x.new` as it is handed back.
A word between `ensures` and its brace is the clause's name.
Where a name is defined, the lines `ghost use` at the head of the file say.
"""


def block(function):
    for line in function.note:
        yield from wrapped(line, "// ", "// ")
    yield from wrapped(function.head, "", "        ")
    for clause in function.contract:
        yield from wrapped(clause, "    ", "        ")


def section(crate, functions):
    yield ""
    yield "### %s" % crate.name
    yield ""
    yield crate.sentence
    yield ""
    yield "```"
    lines = []
    for file, those in itertools.groupby(functions, key=lambda function: function.file):
        lines += [] if file in ("src/lib.rt", "src/main.rt") else ["// ---- " + file, ""]
        for function in those:
            lines += [*block(function), ""]
    yield from lines[:-1]
    yield "```"


def page():
    families = [(family, [(crate, public_of(crate.name)) for crate in family.crates]) for family in read_house()]
    yield from HEAD.splitlines()
    count = [functions for _, crates in families for _, functions in crates if functions]
    yield "%d functions and conversions of %d crates." % (sum(map(len, count)), len(count))
    for family, crates in families:
        if any(functions for _, functions in crates):
            yield ""
            yield "## %s" % (family.name[0].upper() + family.name[1:])
            for crate, functions in crates:
                if functions:
                    yield from section(crate, functions)


def public_of(crate):
    """Its public functions and its conversions; a method's head has its type."""
    found = []
    for file in code_of(crate):
        here = [function for function in functions_in(crate, file) if function.public]
        found += sorted([*here, *conversions_in(crate, file)], key=lambda function: function.first)
    return [f._replace(head=f.head.replace("fn " + f.name.split("::")[-1], "fn " + f.name, 1)) for f in found]


def main():
    return made.settle({"docs/proofs/CONTRACTS.md": made.lines(page())}, sys.argv[1:])


if __name__ == "__main__":
    sys.exit(main())
