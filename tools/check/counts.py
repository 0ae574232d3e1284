"""counts.py: what the tree has, counted, for docs.py. A function for each thing that a page gives a number of; the pages are read nowhere here."""
import functools
import glob
import os
import re
import subprocess
import sys

import frames

ROOT = os.path.normpath(os.path.join(os.path.dirname(os.path.abspath(__file__)), "..", ".."))
CRATES = sorted(os.path.basename(p) for p in glob.glob(os.path.join(ROOT, "crates", "*")))


def text(*path):
    with open(os.path.join(ROOT, *path), encoding="utf-8") as file:
        return file.read()


def lines(*path):
    return text(*path).splitlines()


def exports():
    return re.findall(r'^pub extern "C" fn (\w+)', text("crates", "tablet_c", "src", "lib.rt"), re.M)


def declared():
    return re.findall(r"^Yubi\w+ (yubi_\w+)\(", text("include", "yubisorade.h"), re.M)


def listed():
    """The crates of crates.txt."""
    return [line.split(":")[0].split()[0] for line in lines("crates.txt") if line and not line.startswith("#")]


def families():
    """Its families."""
    return re.findall(r"^# ---- ([^:]+):", text("crates.txt"), re.M)


@functools.lru_cache(None)
def edits():
    """Every must-fail edit, CRATE/NAME, with the files that it changes."""
    found = {}
    for path in glob.glob(os.path.join(ROOT, "crates", "*", "must-fail", "*.edit")):
        name = "%s/%s" % (path.split(os.sep)[-3], os.path.basename(path)[:-5])
        found[name] = re.findall(r"^file: (\S+)", text(path), re.M)
    return found


def rule_edits():
    """How many edits of each crate change a definition in specs/."""
    crates = [name.split("/")[0] for name, files in edits().items() if any(f.startswith("specs/") for f in files)]
    return {crate: crates.count(crate) for crate in crates}


def edits_of(crate):
    """How many edits of a crate change each file of its specs/."""
    changed = [f[len("specs/") : -len(".antt")] for name, files in edits().items() if name.startswith(crate + "/") for f in files if f.startswith("specs/")]
    return {file: changed.count(file) for file in changed}


def programs():
    """The programs that the gate runs and compares."""
    return [crate for crate in CRATES if os.path.isfile(os.path.join(ROOT, "crates", crate, "stdout"))]


def gate():
    """Crates, edits, programs, and what the gate says passed: a check each of crates and edits."""
    return len(listed()), len(edits()), len(programs()), len(listed()) + len(edits())


def scenarios():
    """A case has two arguments, its curve and its batch."""
    return len(lines("crates", "test_tally", "args")) // 2


def censuses():
    """Cases, refusals, whole censuses, divisors printed: a case is its path, then a refusal or a line a divisor."""
    cases, printed = lines("crates", "test_census", "args"), lines("crates", "test_census", "stdout")
    refused = sum(1 for line in printed if line.startswith("refused "))
    return len(cases), refused, len(cases) - refused, len(printed) - len(cases) - refused


def census():
    return len(lines("crates", "census", "stdout"))


@functools.lru_cache(None)
def vectors():
    """The frames but the corners, and the number that each answers."""
    found = frames.decoded(frames.read_parts(os.path.join(ROOT, "crates", "test_vectors", "data", "vectors")))
    return list(zip(found, (int(line.split()[0]) for line in lines("crates", "test_vectors", "stdout"))))


def corners():
    """The lines with a label in front: all that follow the other frames' lines."""
    return len(lines("crates", "test_vectors", "stdout")) - len(vectors())


def answered(operation, *numbers):
    """How many frames there are of a call, and how many of them answer each of the numbers."""
    found = [number for frame, number in vectors() if frame.operation == operation]
    return (len(found), *(found.count(number) for number in numbers))


def pole_files():
    """Those that are written, and those that are read."""
    return answered(frames.WRITE_POLE_FILE, 0)[1], answered(frames.READ_POLE_FILE, 0)[1]


def sums_done():
    return answered(frames.ADD, 0)[1] + answered(frames.DOUBLE, 0)[1]


def composites():
    """Odd composite numbers below 3,000."""
    return sum(1 for n in range(3, 3000, 2) if any(n % d == 0 for d in range(3, n)))


def field_rows():
    """Arithmetic, prime tests, edges: the edges begin where a modulus stands alone, and have one so for each."""
    rows = [line.split() for line in lines("crates", "test_tables", "stdout")]
    first = next(i for i, row in enumerate(rows) if len(row) == 1)
    tests = sum(1 for row in rows if len(row) == 2)
    return first - tests, tests, sum(1 for row in rows[first:] if len(row) > 1)


def pairs_of_polynomials():
    return sum(1 for line in lines("crates", "test_polynomials", "stdout") if line.startswith("p "))


def rows_of_tuples():
    """Rows, and the pairs that stand under three choices of Z each."""
    rows = sum(1 for line in lines("crates", "test_tuples", "stdout") if line.startswith("sum "))
    return rows, rows // 3


def rust_tests():
    """Tests and examples of bindings/: an example is a block in a comment, between two lines of ```."""
    sources = [text(path) for path in glob.glob(os.path.join(ROOT, "bindings", "**", "*.rs"), recursive=True)]
    return sum(s.count("#[test]") for s in sources), sum(len(re.findall(r"^\s*//[/!] ```", s, re.M)) for s in sources) // 2


def streets():
    return sorted(os.listdir(os.path.join(ROOT, "demo")))


@functools.lru_cache(None)
def believed():
    """The two tables of believed.py: lines by file, and the lines of laws beside the first."""
    printed = subprocess.run([sys.executable, os.path.join(ROOT, "tools", "check", "believed.py")], capture_output=True, text=True, check=True).stdout
    tables = [dict(re.findall(r"^(\w+/\S+) +(\d+) ", part, re.M)) for part in printed.split("What the statement of demand 3 names besides")]
    laws = re.search(r"^together +\d+ +(\d+)", printed, re.M).group(1)
    return [{name: int(n) for name, n in table.items()} for table in tables], int(laws)
