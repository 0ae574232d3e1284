#!/usr/bin/env python3
"""For each crate, what the change of spelling renamed and moved, read off two commits: docs/port-names.txt.

    python3 tools/port/names.py            LANDED and the commit of the spelling are the first two lines of docs/PORT.md; prints to standard output

A name is what a line of specs/ or of a law's file in proofs/ declares: a definition, a theorem, a field, a constructor. The files of both commits are
laid beside one another, line by line in the order of their declarations, and each pair of names that differ is printed once a crate. A function's own
proof is left out: its names were the checker's. Exit 1 where a file has more declarations on one side than on the other.
"""
import difflib
import os
import re
import subprocess
import sys

HEAD = re.compile(r"^\s*(?:(?:abbrev|unfoldable|opaque|instance|pub)\s+)*(?:(?:data|record|syntax)\s+)?(?:pub\s+)?([^\s(){}]+)\s*(?:[({].*)?\s:\s")


MOVED = {"crates/poly/specs/Contracts.antt": "crates/poly/specs/Operations.antt"}


def plain(name):
    """A name as both spellings have it."""
    return re.sub(r"^is|[-_?'′◌]", "", name).lower()


def git(*words):
    return subprocess.run(["git", *words], capture_output=True, text=True, check=True).stdout


def declared(commit, path):
    """The names that a file declares, in their order; of several before one colon each."""
    found = []
    for line in git("show", f"{commit}:{path}").split("\n"):
        if line.lstrip().startswith(("--", "use ", "pub use ")):
            continue
        several = re.match(r"^\s+(?:pub\s+)?([^\s:(){}=]+(?:\s+[^\s:(){}=]+)+)\s:\s", line)
        one = HEAD.match(line)
        if one:
            found += [one.group(1)] if re.search(r"\w|◌", one.group(1)) else []
        elif several:
            found += several.group(1).split()
    return found


def laws(commit):
    """The files of specs/ and of laws in proofs/."""
    names = git("ls-tree", "-r", "--name-only", commit, "crates").split()
    return [p for p in names if p.endswith(".antt") and not p.endswith(("/Lib.antt", "/Proof.antt"))]


def main():
    top = git("rev-parse", "--show-toplevel").strip()
    os.chdir(top)
    landed, turned = open("docs/PORT.md", encoding="utf8").read().split("\n")[:2]
    # Folders and files moved to upper camel case, and one file of `poly` to another name.
    after = {path.lower().replace("_", ""): path for path in laws(turned)}
    crates, bad = {}, 0
    for old in laws(landed):
        new = after.get(MOVED.get(old, old).lower().replace("_", ""))
        if new is None:
            print(f"no file for {old}", file=sys.stderr)
            bad = 1
            continue
        crate = old.split("/")[1]
        names, files = crates.setdefault(crate, ({}, []))
        if new != old:
            files.append((old[len(crate) + 8 :], new[len(crate) + 8 :]))
        before, behind = declared(landed, old), declared(turned, new)
        # A line that was laid out anew may declare to the reader what it did not before: those are skipped where the others fit.
        if len(before) == len(behind):
            pairs = [("replace", 0, len(before), 0, len(behind))]
        else:
            pairs = difflib.SequenceMatcher(None, list(map(plain, before)), list(map(plain, behind)), autojunk=False).get_opcodes()
        for tag, a1, a2, b1, b2 in pairs:
            if tag == "replace" and a2 - a1 == b2 - b1 or tag == "equal":
                continue
            print(f"{old}: {before[a1:a2]} beside {behind[b1:b2]}", file=sys.stderr)
            bad = 1
        found = [it for tag, a1, a2, b1, b2 in pairs if a2 - a1 == b2 - b1 for it in zip(before[a1:a2], behind[b1:b2])]
        for a, b in found:
            if a != b:
                names.setdefault(a, []).append(b) if b not in names.get(a, []) else None
    for crate in sorted(crates):
        names, files = crates[crate]
        print(f"# {crate}: {len(names)} names, {len(files)} files")
        for old, new in files:
            print(f"{crate}\tfile\t{old}\t{new}")
        for old in sorted(names):
            for new in names[old]:
                print(f"{crate}\tname\t{old}\t{new}")
    return bad


if __name__ == "__main__":
    sys.exit(main())
