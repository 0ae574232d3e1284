#!/usr/bin/env python3
"""house.py: the house from crates.txt: docs/CRATES.md, every crate by family with its floor and its sentence, and docs/house.svg, its picture.

    python3 tools/make/house.py             writes both
    python3 tools/make/house.py --check     writes nothing: they must be what it would write

crates.txt has a line `# ---- FAMILY: what it is` above each family, and two lines for a crate: `# SENTENCE`, then `NAME: USES`, or `NAME staticlib: USES`
where the crate makes the archive that C links. A line of words has at most 120 characters; rt wants all that a crate uses on one line.
"""
import re
import sys
from collections import namedtuple

import made
import svg
from sources import wrapped

WIDEST = 120
ALONE = "algebra rules refusals jacobian scalar curve tablet tally census".split()  # all other names begin with a family's word
BEGINS = "field poly divisor sum multiple record call scan text test tablet".split()
Family = namedtuple("Family", "name what crates")
Crate = namedtuple("Crate", "name sentence uses")


def read_house():
    """The families, in the order of crates.txt; an error where a line isn't of its form."""
    families, sentence = [], None
    for number, line in enumerate(made.text("crates.txt").splitlines(), 1):
        head = re.fullmatch(r"# ---- ([^:]+): (.+)", line)
        crate = re.fullmatch(r"(\w+)(?: staticlib)?:((?: \w+)*)", line)
        if head:
            families.append(Family(*head.groups(), []))
        elif crate and sentence and families:
            if crate.group(1) not in ALONE and crate.group(1).split("_")[0] not in BEGINS:
                raise SystemExit("crates.txt, line %d: the name %s is of no family" % (number, crate.group(1)))
            families[-1].crates.append(Crate(crate.group(1), sentence, crate.group(2).split()))
        elif not re.fullmatch(r"|# .+", line):
            raise SystemExit("crates.txt, line %d: neither a family, a sentence nor a crate below its sentence" % number)
        if not crate and len(line) > WIDEST:
            raise SystemExit("crates.txt, line %d has %d characters, over %d" % (number, len(line), WIDEST))
        sentence = line[2:] if line.startswith("# ") and not head else None
    return families


def floors(families):
    """A crate's floor: one above the highest of those that it uses, the lowest is 1."""
    uses = {crate.name: crate.uses for family in families for crate in family.crates}
    found = {}

    def floor(name):
        if name not in found:
            found[name] = 1 + max((floor(used) for used in uses[name] if used in uses), default=0)
        return found[name]

    for name in uses:
        floor(name)
    return found


def page(families):
    floor = floors(families)
    yield "# The crates, family by family"
    yield ""
    yield "Made from crates.txt, where each crate's uses stand too, by `python3 tools/make/house.py`."
    yield "%d crates in %d families stand on %d floors." % (len(floor), len(families), max(floor.values()))
    yield "A crate's floor is one above the highest of those that it uses."
    for number, family in enumerate(families, 1):
        yield ""
        yield "## %d. %s" % (number, family.name[0].upper() + family.name[1:])
        yield ""
        yield family.what[0].upper() + family.what[1:] + "."
        yield ""
        yield "| crate | floor | what it is |"
        yield "|---|---|---|"
        for crate in family.crates:
            yield "| `%s` | %d | %s |" % (crate.name, floor[crate.name], crate.sentence)


# ---- the picture: a row a family, the lowest at the bottom; right of the rows a line for each family that others use

WIDTH, EDGE, BOX, LANE, STEP = 940, 16, 690, 22, 17  # a box's width; the room between two lines; between two lines of text
NAMES = 88  # characters of crates' names in a row
Row = namedtuple("Row", "family top bottom names")


def rows_of(families):
    """The rows, from the top."""
    top, found = 52, []
    for family in reversed(families):
        names = wrapped("  ".join(crate.name for crate in family.crates), "", "", NAMES)
        names = [line.replace(" ", "\u00a0") for line in names]  # two plain spaces would be drawn as one
        found.append(Row(family, top, top + 46 + STEP * len(names), names))
        top = found[-1].bottom + 12
    return found


def uses_between(families):
    """The pairs of families of which the first uses the second."""
    of = {crate.name: family.name for family in families for crate in family.crates}
    return {(of[name], of[used]) for family in families for crate in family.crates for name in [crate.name] for used in crate.uses if used in of} - {
        (family.name, family.name) for family in families
    }


def picture(families):
    rows, uses = rows_of(families), uses_between(families)
    yield svg.text(EDGE, 30, "The house: %d crates in %d families, the lowest at the bottom" % (sum(len(f.crates) for f in families), len(families)), "title")
    for row in rows:
        yield svg.rect(EDGE, row.top, BOX, row.bottom - row.top, "box", 6)
        yield svg.text(EDGE + 12, row.top + 20, row.family.name, "title", colour=colour_of(families, row.family.name))
        yield svg.text(EDGE + 12, row.top + 36, row.family.what, "soft")
        for k, names in enumerate(row.names):
            yield svg.text(EDGE + 12, row.top + 54 + STEP * k, names, "mono")
    yield from lines_between(rows, uses, families)
    bottom = rows[-1].bottom
    yield svg.text(EDGE, bottom + 24, "A dot: some crate of the row uses one of the family whose line it stands on. The line's arrow ends at that family.", "soft")
    yield svg.text(EDGE, bottom + 42, "docs/CRATES.md has each crate's sentence, crates.txt what each uses.", "soft")


def colour_of(families, name):
    return svg.COLOURS[[family.name for family in families].index(name) % len(svg.COLOURS)]


def lines_between(rows, uses, families):
    """Lines of higher families stand nearer to the rows, so that no arrow crosses a line but upward ones."""
    used = [row for row in rows if any(to == row.family.name for _, to in uses)]
    lane = {row.family.name: EDGE + BOX + 30 + LANE * k for k, row in enumerate(used)}
    into = {row.family.name: row.top + 14 for row in rows}
    out = {row.family.name: row.bottom - 16 for row in rows}
    for row in rows:
        name = row.family.name
        reached = [lane[to] for user, to in uses if user == name]
        if reached:
            yield svg.path([(EDGE + BOX, out[name]), (max(reached), out[name])], "rule", width=1)
    for row in used:
        name, colour = row.family.name, colour_of(families, row.family.name)
        heights = [out[user] for user, to in uses if to == name] + [into[name]]
        yield svg.path([(lane[name], min(heights)), (lane[name], max(heights))], colour=colour, width=2)
        yield svg.path([(lane[name], into[name]), (EDGE + BOX + 8, into[name])], colour=colour, width=2)
        yield svg.arrow_left(EDGE + BOX + 1, into[name], colour)
        for user in sorted(user for user, to in uses if to == name):
            yield svg.dot(lane[name], out[user], colour)


def drawn(families):
    height = rows_of(families)[-1].bottom + 58
    return svg.picture(WIDTH, height, "The crates by family, and which family uses which", picture(families))


def main():
    families = read_house()
    return made.settle({"docs/CRATES.md": made.lines(page(families)), "docs/house.svg": made.lines(drawn(families))}, sys.argv[1:])


if __name__ == "__main__":
    sys.exit(main())
