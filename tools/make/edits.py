#!/usr/bin/env python3
"""edits.py: docs/proofs/EDITS.md, every must-fail edit: what it turns, the function or rule that it changes, and where the prover refused it first.

    python3 tools/make/edits.py             writes it
    python3 tools/make/edits.py --check     writes nothing: it must be what it would write

The first errors are those that first_errors.py recorded; what the edit changes is found by its `old:` lines.
"""
import glob
import os
import re
import sys
from collections import namedtuple

import made
from first_errors import read_first_errors
from house import read_house
from sources import definitions_in, functions_in, wrapped

Edit = namedtuple("Edit", "crate name turns changed")

HEAD = """# The wrong programs

Made from must-fail/ of every crate by `python3 tools/make/edits.py`.
Each edit changes a few words of a crate's code or of its rules, and the gate fails unless the prover refuses the crate with it.
So the contract named is not empty: the wrong program doesn't keep it.
An edit of a rule is refused by the code that keeps the rule as it stands, or by a law of it.
Where the prover stopped first, and its words there, is from what `rt must-fail` or the gate printed (first-errors.txt).
"""


def read_edit(crate, path):
    """What an edit turns is what stands above its first `file:`; the lines it changes are found in the text as the pairs before left it."""
    words, file, old, changed, texts = [], None, None, [], {}
    for line in made.text(path).splitlines():
        key, _, rest = line.partition(": ")
        if key == "file":
            file = rest
            texts.setdefault(file, made.text("crates", crate, file))
        elif file is None:
            words.append(line.removeprefix("# "))
        elif key == "old":
            old = rest
        elif line.startswith("new:"):
            if texts[file].count(old) != 1:
                raise SystemExit("%s: %s has its `old:` %d times, and it must once: %s" % (path, file, texts[file].count(old), old))
            at = texts[file].index(old)
            changed.append((file, texts[file].count("\n", 0, at) + 1))
            texts[file] = texts[file].replace(old, line[4:].removeprefix(" "), 1)
    return Edit(crate, os.path.basename(path)[:-5], " ".join(words), named(crate, changed))


def named(crate, changed):
    """What stands at these lines, by file: functions, constants, rules, each in its words. A line `use` beside them isn't named."""
    found = {}
    for file, line in changed:
        spans = functions_in(crate, file) if file.endswith(".rt") else definitions_in(crate, file)
        names = ["`%s`" % span.name for span in spans if span.first <= line <= span.last]
        here = made.text("crates", crate, file).splitlines()[line - 1]
        names = names[-1:] or ["the constant `%s`" % name for name in re.findall(r"\bconst (\w+)", here)]
        if names and names[0] not in found.get(file, []):
            found.setdefault(file, []).append(names[0])
    if not found:
        raise SystemExit("an edit of %s changes no function and no definition: %s" % (crate, changed))
    return found


def edits_of(crate):
    paths = sorted(glob.glob(os.path.join(made.ROOT, "crates", crate, "must-fail", "*.edit")))
    return [read_edit(crate, os.path.relpath(path, made.ROOT)) for path in paths]


def changes(edit):
    """What the edit changes: a function, against its contract, a constant, or a rule."""
    for file, names in edit.changed.items():
        if not file.startswith("src/"):
            yield "Changes the rule %s (%s)." % (" and ".join(names), file)
        else:
            yield "Changes %s (%s)%s." % (" and ".join(names), file, "" if names[0].startswith("the") else ", against its contract")


def item(edit, errors):
    name = "%s/%s" % (edit.crate, edit.name)
    yield "- [%s](../../crates/%s/must-fail/%s.edit):" % (name, edit.crate, edit.name)
    yield from wrapped(edit.turns.rstrip(".") + ".", "  ", "  ")
    for line in changes(edit):
        yield from wrapped(line, "  ", "  ")
    place, words = errors.get(name, (None, None))
    yield from wrapped("First error: %s, %s" % (place, words) if place else "First error: not recorded.", "  ", "  ")


def page(families, errors):
    edits = {crate.name: edits_of(crate.name) for family in families for crate in family.crates}
    every = [edit for those in edits.values() for edit in those]
    rules = [edit for edit in every if any(not file.startswith("src/") for file in edit.changed)]
    yield from HEAD.splitlines()
    yield "%d edits of %d crates; %d of them change a rule." % (len(every), sum(1 for those in edits.values() if those), len(rules))
    for family in families:
        if any(edits[crate.name] for crate in family.crates):
            yield ""
            yield "## %s" % (family.name[0].upper() + family.name[1:])
        for crate in family.crates:
            if edits[crate.name]:
                yield from ["", "### %s" % crate.name, ""]
                for edit in edits[crate.name]:
                    yield from item(edit, errors)


def main():
    return made.settle({"docs/proofs/EDITS.md": made.lines(page(read_house(), read_first_errors()))}, sys.argv[1:])


if __name__ == "__main__":
    sys.exit(main())
