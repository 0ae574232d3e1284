"""believed.py: what a reader must believe, counted.

From the contracts of the public calls it follows each name to its definition, and from there the names that the definition's own text
has, through the `use` lines of specs/ and of algebra's and rules' proofs/. It prints, file by file in the order of reading, the
definitions reached and their lines; then what the statement of demand 3 (rules/proofs/Demand3 `demand3`) names besides.

A definition is its signature, its clauses, its fields. Lines are those that are neither blank, comment, `use` nor `unfolding`; a `module`
line counts once where something below it is reached, an `open` or `infix` line where a name of it is used. Not counted:

  laws      in a column of their own: the fields of a `record { .. }` that are proofs, such as a ring's laws. The definition carries them along,
            the checker believes them, and the names in them aren't followed.
  proofs    lemmas that a definition cites by name. antt calculates only with what is marked `abbrev` or `unfoldable`; a definition
            without a mark is taken for a lemma, listed, and not followed.
  code      structs and enums declared in src/, listed by name.
  kit       the toolchain's own names, listed by name.

Names are read as words. A word that a clause binds (left of its `=`, by `λ`, `let` or a binder) is a variable in all of that clause; a section's
parameters aren't told from definitions, so one that has a definition's name makes it count. What comes in by a glob, or by `use M` and
`M.x`, would be missed: a file that is reached and has such a line is named as a warning, and the exit status is 1.

    python3 tools/check/believed.py            the two tables
    python3 tools/check/believed.py --unread   and the definitions of the files in specs/ that neither reaches
    python3 tools/check/believed.py --page     writes docs/proofs/BELIEVED.md, the two tables with every name
    python3 tools/check/believed.py --check    writes nothing: that page must be what it would write
"""
import glob
import os
import re
import sys

sys.path.append(os.path.join(os.path.dirname(os.path.abspath(__file__)), "..", "make"))
import made
from sources import wrapped

ROOT = os.path.join(made.ROOT, "crates")
CALLS = [("tablet_c", 'extern "C" fn'), ("scan_*", "pub fn scan(total: &mut"), ("text_tally", "pub fn tally"), ("text_lines", "pub fn refusal")]
THEOREM = ("rules/proofs/Demand3", ["Demand3", "demand3"])
ORDER = [
    "rules/specs", "signed", "tablet_answers", "scan_flat", "scan_lent", "scan_record", "divisor", "field", "digits", "text_lines", "text_tally",
    "algebra/proofs/Ring", "algebra/proofs/List/Ops", "algebra/proofs/Zmod", "algebra/proofs/Poly/Series", "algebra/proofs/Poly/Bound", "algebra/proofs/Poly/Poly",
    "algebra/proofs/Poly", "algebra/proofs/List", "algebra", "rules/proofs/Demand3", "rules/proofs",
]  # fmt: skip
RULES = ["Curve", "Pair", "Sum", "Multiple", "Tests", "Bytes", "Checks", "Records", "Split", "First", "Lists", "Census", "Calls"]
SIGNATURE = re.compile(r"((?:unfoldable |abbrev |pub )*)(\S+)(?: \{[^}]*\})? :(?: |$)")
DECLARED = re.compile(r"(?:pub )?(record|data) (\S+)")


def words(text):
    """The names in a text: no projections (`a.x`), no labels of a record (`x =` after `{` or `;`), no quoted text."""
    text = re.sub(r'"[^"]*"', " ", text)
    text = re.sub(r"(?<=[^\s({;,])\.(?=[^\s(){};,.])[^\s(){};,.]+", " ", text)
    text = re.sub(r"([{;]\s*)[^\s(){};,]+ =", r"\1 =", text)
    return set(re.split(r"[\s(){}.;,@]+", text))


def bound(clause):
    """The variables that a clause binds."""
    head = None if SIGNATURE.match(clause) or DECLARED.match(clause) else re.match(r"(.*?) =(?: |\n|$)", clause)
    found = words(head.group(1)) if head else set()
    for group in re.findall(r"[({]([^(){}:=]+) : ", clause) + re.findall(r"λ ([^.]*)\.", clause) + re.findall(r"\blet (\S+)", clause):
        found |= set(re.split(r"[\s(){}]+", group))
    return found


def names(word, known):
    """The names of `known` that a word stands for: itself, or an operator that has it for a part."""
    return [n for n in known if n == word or ("◌" in n and n != "◌" and word in n.split("◌") and word)]


class Item:
    def __init__(self, file, kind, name, mark, blocks):
        self.file, self.kind, self.name, self.mark, self.blocks = file, kind, name, mark, blocks
        self.lines, self.members, self.margin = [], [], [0]

    def words(self):
        """The names in its clauses, a clause at a time, but for laws and variables."""
        found = set()
        for begin, end in zip(self.margin, self.margin[1:] + [len(self.lines)]):
            clause = "\n".join(line for line in self.lines[begin:end] if not law(line))
            found |= words(clause) - (bound(clause) if self.kind != "module" else set())
        return found


class File:
    """A file's imports and its items, in order: definitions, and the module, open and infix lines around them."""

    def __init__(self, path):
        self.path, self.imports, self.items, self.whole = path, {}, [], []
        blocks, item = [], None
        for raw in open(os.path.join(ROOT, path + ".antt"), encoding="utf-8"):
            line = re.sub(r"(^|\s)--( .*)?$", "", raw.rstrip("\n")).rstrip()
            word = line.strip()
            if not word or word.startswith("unfolding "):
                continue
            indent = len(line) - len(line.lstrip())
            if re.match(r"(pub )?use ", word):
                match = re.fullmatch(r"(?:pub )?use (\S+)\.\{(.*)\}", word)
                self.whole += [] if match else [word]
                for part in match.group(2).split(",") if match else []:
                    name, _, new = part.strip().partition(" as ")
                    self.imports[new or name] = (match.group(1), name)
                continue
            while blocks and indent < blocks[-1].inside:
                blocks.pop()
            if item and indent > item.indent and not (item.kind == "module" and item.lines[-1].endswith(" where")):
                item.lines.append(word)
                self.member(item, word, indent)
                continue
            item = self.begin(word, item, indent, list(blocks))
            if item.kind == "module":
                item.inside = indent + 2
                blocks.append(item)

    def begin(self, word, item, indent, blocks):
        """A line that stands at its block's margin: it begins an item, or goes on with the clauses of the last one."""
        sign, declared = SIGNATURE.match(word), DECLARED.match(word)
        if word.startswith("module "):
            new = Item(self, "module", None, None, blocks)
        elif re.match(r"open |infix", word):
            new = Item(self, "open", None, None, blocks)
            used = re.search(r" use \{(.*)\}", word)
            new.members = [p.split(" as ")[-1].strip() for p in used.group(1).split(",")] if used else [word.split()[-1]]
        elif declared:
            new = Item(self, declared.group(1), declared.group(2), "abbrev", blocks)
        elif sign:
            new = Item(self, "definition", sign.group(2), sign.group(1), blocks)
        elif re.match(r"(pub )?(mod|ruleset) ", word):
            new = Item(self, "other", None, None, blocks)
        else:
            item.margin.append(len(item.lines))
            item.lines.append(word)
            return item
        new.lines, new.indent, new.inside = [word], indent, indent + 2
        self.items.append(new)
        return new

    def member(self, item, word, indent):
        """A constructor stands for its data; a record's field that is a proof, and in no other record a value, is a law wherever a value of it is made."""
        sign = SIGNATURE.match(word)
        if sign and indent == item.indent + 2:
            if item.kind == "data":
                item.members.append(sign.group(2))
            if item.kind == "record":
                (LAWS if re.search(r"[≡≢⊥]|IsSet", word) else DATA).add(sign.group(2))

    def defined(self):
        return {n: i for i in self.items if i.kind in ("definition", "record", "data") for n in [i.name] + i.members}


LAWS, DATA, FILES = set(), set(), {}


def law(line):
    return re.match(r"(\S+) = ", line) and line.split()[0] in LAWS - DATA and line.endswith(";")


def load(module):
    """The file of a module, as Rattle.algebra.proofs.Zmod.Zmod or Rattle.rules.specs.Pair; None for one of the kit or of code."""
    match = re.fullmatch(r"Rattle\.(\w+)\.(specs|proofs)\.(.*)", module)
    path = match and "/".join([match.group(1), match.group(2)] + match.group(3).split("."))
    if not path or not os.path.exists(os.path.join(ROOT, path + ".antt")):
        return None
    if path not in FILES:
        FILES[path] = File(path)
        for other, _ in FILES[path].imports.values():
            load(other)
    return FILES[path]


class Reached:
    def __init__(self):
        self.items, self.other = set(), {"proofs": set(), "code": set(), "kit": set()}

    def name(self, module, name):
        file = load(module)
        if file and name in file.defined():
            self.item(file.defined()[name])
        elif file and name in file.imports:  # handed on by a `pub use`
            self.name(*file.imports[name])
        elif not file:
            self.other["code" if module.split(".")[0] == "Rattle" and os.path.isdir(os.path.join(ROOT, module.split(".")[1])) else "kit"].add(name)

    def item(self, item):
        if item in self.items:
            return
        if item.kind == "definition" and not re.search("abbrev|unfoldable", item.mark):
            self.other["proofs"].add(item.name)
            return
        self.items.add(item)
        self.follow(item.file, item.blocks, item.words())

    def follow(self, file, blocks, found):
        """Every name found, in the modules' own lines around it, and in the open lines that it uses."""
        own = file.defined()
        for around in blocks:
            if around not in self.items:
                self.items.add(around)
                found |= around.words()
        for line in file.items:
            if line.kind == "open" and all(b in blocks for b in line.blocks) and line not in self.items and any(names(w, line.members) for w in found):
                self.items.add(line)
                found |= line.words()
        for word in found:
            for name in names(word, own):
                self.item(own[name])
            if not names(word, own):
                for name in names(word, file.imports):
                    self.name(*file.imports[name])


def contracts(reached):
    """The names in the `requires` and `ensures` of the public calls, by the `ghost use` lines above them."""
    for crate, begins in CALLS:
        found = 0
        for path in sorted(glob.glob(os.path.join(ROOT, crate, "src", "*.rt"))):
            source = open(path, encoding="utf-8").read()
            imports = {}
            for module, group in re.findall(r"^ghost use (\S+)\.\{(.*)\};", source, re.M):
                imports.update({n.strip(): (module, n.strip()) for n in group.split(",")})
            for call in re.findall(re.escape(begins) + r".*?\n\{", source, re.S):
                found += 1
                for word in set().union(*map(words, re.findall(r"^ *(?:requires|ensures)(?: \w+)? \{(.*)\}$", call, re.M))):
                    for name in names(word, imports):
                        reached.name(*imports[name])
        if not found:
            raise SystemExit("no `%s` in crates/%s/src" % (begins, crate))


def rank(path):
    part = next((i for i, p in enumerate(ORDER) if path.startswith(p)), len(ORDER))
    file = path.split("/")[-1]
    return (part, RULES.index(file) if part == 0 and file in RULES else len(RULES), path)


def rows(items):
    """Of each file, in the order of reading: its path, its lines and laws that are reached, and the names."""
    for path in sorted({i.file.path for i in items}, key=rank):
        here = [i for i in FILES[path].items if i in items]
        laws = sum(1 for i in here if i.kind == "definition" for line in i.lines if law(line))
        yield path, sum(len(i.lines) for i in here) - laws, laws, [i.name for i in here if i.name]


def sums(items):
    return sum(lines for _, lines, _, _ in rows(items)), sum(laws for _, _, laws, _ in rows(items))


def table(title, items):
    yield title
    yield "%-28s %5s %5s  %s" % ("file", "lines", "laws", "definitions")
    for path, lines, laws, defined in rows(items):
        yield "%-28s %5d %5s  %s" % (path, lines, laws or "", " ".join(defined))
    yield "%-28s %5d %5d" % ("together", *sums(items))


def followed():
    """What the contracts of the public calls reach, and that with what the statement of demand 3 does."""
    calls, both = Reached(), Reached()
    contracts(calls)
    contracts(both)
    file = load("Rattle." + THEOREM[0].replace("/", "."))
    for name in THEOREM[1]:
        item = file.defined()[name]
        both.items.add(item)
        # of the theorem itself only the statement
        item.lines = item.lines[:1] if item.kind == "definition" else item.lines
        both.follow(file, item.blocks, item.words())
    return calls, both


OTHER = (("code", "declared in src/"), ("kit", "of the toolchain"), ("proofs", "lemmas cited by a definition"))


def printed(calls, both):
    yield from table("What the contracts of the public calls name", calls.items)
    yield ""
    yield from table("What the statement of demand 3 names besides", both.items - calls.items)
    first, more = sums(calls.items), sums(both.items - calls.items)
    yield "\nboth: %d lines, and %d of laws" % (first[0] + more[0], first[1] + more[1])
    for kind, what in OTHER:
        yield "\n%s: %s" % (what, " ".join(sorted(both.other[kind])))


def unread(both):
    for path in sorted({i.file.path for i in both.items}, key=rank):
        left = [i.name for i in FILES[path].items if i.name and i not in both.items and i.mark is not None]
        if "/specs/" in path and left:
            yield "\nnot reached in %s: %s" % (path, " ".join(left))


HEAD = """# What a reader must believe

Made by `python3 tools/check/believed.py --page`, whose head says how it follows a name and what a line is.
Who has read these definitions and holds them to say what documents 01 and 02 say need read no other: all the rest is checked against them.
Files are in the order of reading; behind each stands how many of its lines are reached, and the names."""


def page(calls, both):
    yield from HEAD.splitlines()
    for title, items in (("What the contracts of the public calls name", calls.items), ("What the statement of demand 3 names besides", both.items - calls.items)):
        lines, laws = sums(items)
        yield from ["", "## " + title, "", "%d lines%s." % (lines, ", and %d of laws that the definitions carry along" % laws if laws else ""), ""]
        for path, lines, laws, defined in rows(items):
            yield "- %s, %d%s:" % (path, lines, " and %d of laws" % laws if laws else "")
            yield from wrapped(", ".join("`%s`" % name for name in defined) + ".", "  ", "  ")
    yield from ["", "## Not counted, and to be believed too", ""]
    for kind, what in OTHER[:2]:
        yield "- %s:" % (what[0].upper() + what[1:])
        yield from wrapped(", ".join("`%s`" % name for name in sorted(both.other[kind])) + ".", "  ", "  ")
    yield "- Lemmas that a definition cites are proved, and need no belief:"
    yield from wrapped(", ".join("`%s`" % name for name in sorted(both.other["proofs"])) + ".", "  ", "  ")


def main():
    calls, both = followed()
    missed = {i.file for i in both.items if i.file.whole}
    for file in missed:
        print("warning: %s has %s, which isn't followed" % (file.path, ", ".join(file.whole)))
    if sys.argv[1:] in (["--page"], ["--check"]):
        return made.settle({"docs/proofs/BELIEVED.md": made.lines(page(calls, both))}, [a for a in sys.argv[1:] if a == "--check"]) or int(bool(missed))
    print("\n".join(printed(calls, both)))
    if "--unread" in sys.argv:
        print("\n".join(unread(both)))
    return 1 if missed else 0


if __name__ == "__main__":
    sys.exit(main())
