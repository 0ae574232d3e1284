"""sources.py: the crates' files as the pages need them: the functions of src/ with their contracts, the definitions of specs/ and proofs/."""
import glob
import os
import re
import textwrap
from collections import namedtuple

from made import ROOT, text

Function = namedtuple("Function", "crate file name public head note contract first last")
Definition = namedtuple("Definition", "name first last")


def files_of(crate, ending):
    """The paths of a crate's files with that ending, below crates/CRATE."""
    home = os.path.join(ROOT, "crates", crate)
    paths = (os.path.relpath(path, home) for path in glob.glob(os.path.join(home, "**", "*." + ending), recursive=True))
    return sorted(path for path in paths if not path.startswith("out/"))


def code_of(crate):
    """Its files of code, the main one first."""
    return sorted((path for path in files_of(crate, "rt") if path.startswith("src/")), key=lambda path: (path not in ("src/lib.rt", "src/main.rt"), path))


def functions_in(crate, file):
    """The functions of a file of code, in order. A method is TYPE::NAME; the note is the comment that stands right above; lines are counted from 1."""
    lines, owner = text("crates", crate, file).splitlines(), None
    for k, line in enumerate(lines):
        begins = re.match(r"impl (\w+)", line)
        owner = begins.group(1) if begins else None if line == "}" else owner
        match = re.match(r'( *)((?:pub )?)((?:extern "C" )?fn (\w+).*)', line)
        if not match:
            continue
        indent, public, head, name = match.groups()
        end = next(n for n in range(k, len(lines)) if lines[n] in (indent + "}", indent + "{}"))
        opened = next(n for n in range(k, end + 1) if lines[n].strip() in ("{", "{}") or lines[n].endswith(" {"))
        contract = [each.strip() for each in lines[k + 1 : opened] if re.match(r"\s*(requires|ensures)\b", each)]
        name = "%s::%s" % (owner, name) if owner and indent else name
        if head.endswith("("):
            last = next(n for n in range(k, end) if lines[n].startswith(indent + ")"))
            head += ", ".join(each.strip().rstrip(",") for each in lines[k + 1 : last]) + lines[last].strip()
        yield Function(crate, file, name, bool(public), head.removesuffix(" {"), note_above(lines, k), contract, k + 1, end + 1)


def conversions_in(crate, file):
    """Its conversions by From and TryFrom, in order, as functions: the head is the impl's, the contract the law of what is given for what."""
    lines = text("crates", crate, file).splitlines()
    for k, line in enumerate(lines):
        match = re.match(r"impl ((?:Try)?From<.*> for \w+) \{", line)
        if match:
            end = next(n for n in range(k, len(lines)) if lines[n] == "}")
            laws = [each.strip().removeprefix("ghost ").rstrip(";") for each in lines[k:end] if re.match(r"\s*ghost \w+_gives\b", each)]
            yield Function(crate, file, match.group(1), True, "impl " + match.group(1), note_above(lines, k), laws, k + 1, end + 1)


def note_above(lines, k):
    """The comment right above line k, attributes passed over."""
    begin = k
    while begin and re.match(r"\s*(//|#\[)", lines[begin - 1]):
        begin -= 1
    return [line.strip()[3:] for line in lines[begin:k] if line.strip().startswith("// ")]


def definitions_in(crate, file):
    """The definitions of a file of antt, in order: each from its signature, or `record` or `data`, to the line before the next."""
    lines = text("crates", crate, file).splitlines()
    begins = [(k, match.group(1)) for k, line in enumerate(lines, 1) for match in [SIGNATURE.match(line)] if match]
    for (k, name), (after, _) in zip(begins, begins[1:] + [(len(lines) + 1, "")]):
        yield Definition(name, k, after - 1)


SIGNATURE = re.compile(r"^(?:  )?(?:(?:abbrev|unfoldable|pub|record|data) )*([^\s(){},;:=|-][^\s(){},;:]*)(?: \{[^}]*\}| \([^)]*\))* :(?:\s|$)")


def wrapped(line, first, more, width=156):
    """A line in lines of at most that width, cut at spaces, the later ones further in."""
    return textwrap.wrap(line, width, initial_indent=first, subsequent_indent=more, break_long_words=False, break_on_hyphens=False)
