#!/usr/bin/env python3
"""docs.py: holds README.md and docs/ to the tree. Exit 1 and a line for each thing that isn't so.

Counts: every number in the words of STATED is what counts.py counts, and each page still has those words; the edits of specs/ by crate and by file;
    what a reader must believe, in sum and file by file.
Lists: the calls in README.md's table and in docs/proofs/CALLS.md's list, crates.txt's families in README.md's table, the folders of demo/ in docs/USING.md,
    every edit in docs/proofs/EDITS.md.
Names, on every page: an edit CRATE/NAME, a crate, a file, a street of demo/ is there; a function CRATE::NAME is in that crate's code; what stands in
    backquotes is a name of the tree, on the pages of proofs one of crates/; where a page says the file or the crate that has it, it is there. A link leads
    to a file, and to a heading of it where it names one. A contract's lines are the code's. Of every note too: a decision that is cited by its number has
    the title that is cited.
Form: docs/PROVED.md has at most 150 lines, docs/TOUR.md's addition at most 18 rows and crates; a sentence a line, no line over 160 characters,
    none twice in a row.

Notes of docs/changes, docs/PORT.md, docs/DESIGN-PASS.md and docs/LOOK-BACK.md are history, and name what has gone since: but for that they aren't held.
Pages that a script makes from the tree (MADE) are held by that script. Numbers of recorded runs (times, instructions, the judge's calls) say what was and
aren't held, nor is any sentence between the names. It reads, and writes nothing."""
import functools
import glob
import os
import re
import sys

sys.path += [os.path.join(os.path.dirname(os.path.abspath(__file__)), "..", folder) for folder in ("reference", "make")]
import counts
import frames
from counts import CRATES, ROOT, text


def pages(*path):
    return sorted(os.path.relpath(p, ROOT) for p in glob.glob(os.path.join(ROOT, *path)))


MADE = ["docs/CRATES.md"] + ["docs/proofs/%s.md" % page for page in ("EDITS", "CONTRACTS", "BELIEVED", "TIMES")]
PROOFS = ["docs/PROVED.md"] + [page for page in pages("docs", "proofs", "*.md") if page not in MADE]
HISTORY = ["docs/PORT.md", "docs/DESIGN-PASS.md", "docs/LOOK-BACK.md"]
PAGES = ["README.md"] + pages("tools", "README.md") + pages("bindings", "README.md")
PAGES += [page for page in pages("docs", "*.md") if page not in MADE + HISTORY] + PROOFS[1:]
EVERY = sorted(set(PAGES + HISTORY + pages("*.md") + pages("bindings", "*", "*.md") + pages("docs", "changes", "*.md")))
wrong = []

# ---- numbers in words

ONES = "no one two three four five six seven eight nine ten eleven twelve thirteen fourteen fifteen sixteen seventeen eighteen nineteen".split()
TENS = "twenty thirty forty fifty sixty seventy eighty ninety".split()
WORDS = {word: n for n, word in enumerate(ONES)}
WORDS.update({ten + ("-" + ONES[k] if k else ""): 20 + 10 * t + k for t, ten in enumerate(TENS) for k in range(10)})
WORDS["none"] = 0
NUMBER = r"(?<![\w,])((?:%s)|\d+(?:,\d{3})*)(?![\w-])" % "|".join(sorted(WORDS, key=len, reverse=True))


def value(word):
    word = word.lower().replace(",", "")
    return WORDS[word] if word in WORDS else int(word)


# ---- counts: a page, its words with N for each number, and what the numbers are


def flowing(page):
    """A page with its lines run together: words may stand on two lines."""
    return re.sub(r"\s+", " ", text(page))


def compared():
    """What the gate's programs run and compare: frames, corners, cases, rows and pairs."""
    programs = counts.scenarios() + counts.censuses()[0]
    return len(counts.vectors()) + counts.corners() + programs + sum(counts.field_rows()) + counts.pairs_of_polynomials() + counts.rows_of_tuples()[0]


STATED = [
    ("README.md", "**N lines of definitions**", lambda: sum(counts.believed()[0][0].values())),
    ("README.md", "**N wrong programs**", lambda: len(counts.edits())),
    ("README.md", "**N cases**", compared),
    ("README.md", "declares N calls", lambda: len(counts.declared())),
    ("docs/PROVED.md", "None of the N exports", lambda: len(counts.exports())),
    ("docs/PROVED.md", "The contracts take N.", lambda: sum(counts.believed()[0][0].values())),
    ("docs/PROVED.md", "names N lines more", lambda: sum(counts.believed()[0][1].values())),
    ("docs/PROVED.md", "N lines of ring laws", lambda: counts.believed()[1]),
    ("docs/PROVED.md", "proves N crates, has N wrong programs refused, and runs N programs", lambda: counts.gate()[:3]),
    ("docs/proofs/CALLS.md", "`tablet_c`: the N exports", lambda: len(counts.exports())),
    ("docs/proofs/CALLS.md", "of each of the N exports", lambda: len(counts.exports())),
    ("docs/proofs/PROGRAMS.md", "all N calls of `tablet` are made", lambda: len(counts.exports())),
    ("docs/proofs/PROGRAMS.md", "`test_tally` runs N cases", counts.scenarios),
    ("docs/proofs/PROGRAMS.md", "`test_census` runs N cases", lambda: counts.censuses()[0]),
    ("docs/proofs/PROGRAMS.md", "N whole censuses", lambda: counts.censuses()[2]),
    ("docs/proofs/PROGRAMS.md", "`test_vectors` runs N frames", lambda: len(counts.vectors())),
    ("docs/proofs/PROGRAMS.md", "N lines (tools/make/corners.py)", counts.corners),
    ("docs/proofs/PROGRAMS.md", "the N odd composite numbers below 3,000", counts.composites),
    ("docs/proofs/PROGRAMS.md", "N right orders and N wrong ones", lambda: counts.answered(frames.CHECK_ORDER, 0, 27)[1:]),
    ("docs/proofs/PROGRAMS.md", "N splits, N done and N refused 26", lambda: counts.answered(frames.SPLIT, 0, 26)),
    ("docs/proofs/PROGRAMS.md", "N steps of a census, N done, N refused 24 and N refused 25", lambda: counts.answered(frames.NEXT_DIVISOR, 0, 24, 25)),
    ("docs/proofs/PROGRAMS.md", "N scans, ", lambda: counts.answered(frames.SCAN)),
    ("docs/proofs/PROGRAMS.md", "N pole files written and read", lambda: sum(counts.pole_files())),
    ("docs/proofs/ARITHMETIC.md", "N rows of arithmetic", lambda: counts.field_rows()[0]),
    ("docs/proofs/ARITHMETIC.md", "N answers of the prime test, and N rows", lambda: counts.field_rows()[1:]),
    ("docs/proofs/ARITHMETIC.md", "`test_polynomials` reads N pairs", counts.pairs_of_polynomials),
    ("docs/DECISIONS.md", "W-201's N composite numbers", counts.composites),
    ("docs/TESTING.md", "N rows of arithmetic modulo six primes, N answers of the prime test, N rows", counts.field_rows),
    ("docs/TESTING.md", "| `test_polynomials` | N pairs", counts.pairs_of_polynomials),
    ("docs/TESTING.md", "| `test_tuples` | N rows of two tuples (W-206), N pairs", counts.rows_of_tuples),
    ("docs/TESTING.md", "N frames through the calls that are exported", lambda: len(counts.vectors())),
    ("docs/TESTING.md", "N lines | tools/make/corners.py", counts.corners),
    ("docs/TESTING.md", "curve A, N divisors", counts.census),
    ("docs/TESTING.md", "N curves and files: N refusals, N whole censuses", lambda: counts.censuses()[:3]),
    ("docs/TESTING.md", "13, N divisors", lambda: counts.censuses()[3]),
    ("docs/TESTING.md", "| `test_tally` | N folders", counts.scenarios),
    ("docs/TESTING.md", "all N sums and doubles of the vectors agree", counts.sums_done),
    ("docs/TESTING.md", "below 3,000 for p, N of them", counts.composites),
    ("docs/TESTING.md", "Orders among the vectors: N that are accepted and N that are refused 27", lambda: counts.answered(frames.CHECK_ORDER, 0, 27)[1:]),
    ("docs/TESTING.md", "Splits among the vectors: N, of which N are done and N refused 26", lambda: counts.answered(frames.SPLIT, 0, 26)),
    ("docs/TESTING.md", "Steps of a census among the vectors: N, of which N are done, N refused 24 and N refused 25",
     lambda: counts.answered(frames.NEXT_DIVISOR, 0, 24, 25)),
    ("docs/TESTING.md", "Scans among the vectors: N", lambda: counts.answered(frames.SCAN)),
    ("docs/TESTING.md", "Pole files: N written and N read", counts.pole_files),
    ("docs/TESTING.md", "of the judge, N in all and N examples", counts.rust_tests),
]  # fmt: skip


def check_counts():
    for page, words, count in STATED:
        want = count()
        want = want if isinstance(want, tuple) else (want,)
        stated = re.findall(NUMBER.join(map(re.escape, re.split(r"\bN\b", words))), flowing(page), re.I)
        if not stated:
            wrong.append('%s doesn\'t say "%s" any more, so that its number can\'t be held' % (page, words))
        for found in stated:
            found = (found,) if isinstance(found, str) else found
            if tuple(map(value, found)) != want:
                wrong.append('%s says "%s" with %s, and the tree has %s' % (page, words, ", ".join(found), ", ".join(map("{:,}".format, want))))


def check_rule_edits():
    """The sentence on edits of specs/: all, then by crate, `N of CRATE`, or CRATE/NAME for one."""
    page = flowing("docs/proofs/CALLS.md")
    stated = re.search(NUMBER + r" change a definition in specs/ \((.*?)\)", page, re.I)
    if not stated:
        wrong.append("CALLS.md doesn't say how many edits change a definition in specs/")
        return
    said = {crate: value(n) for n, crate in re.findall(NUMBER + r" of (\w+)", stated.group(2))}
    for crate in re.findall(r"(\w+)/\w+", stated.group(2)):
        said[crate] = said.get(crate, 0) + 1
    there = counts.rule_edits()
    if value(stated.group(1)) != sum(there.values()):
        wrong.append("CALLS.md says that %s edits change a definition in specs/, and %d do" % (stated.group(1).lower(), sum(there.values())))
    differ("CALLS.md, edits that change a definition in specs/", said, there)


def check_rule_files():
    """The sentence on the edits of rules by file: `N change specs/FILE`, further ones `N FILE`."""
    stated = re.search(r"Of the edits of `rules` (.*?)\.", flowing("docs/proofs/CALLS.md"))
    said = {file: value(n) for n, file in re.findall(NUMBER + r" (?:changes? )?(?:specs/)?((?:\w+/)*[A-Z]\w+)", stated.group(1))} if stated else {}
    differ("CALLS.md, edits of rules by file of specs/", {file: n for file, n in said.items() if n}, counts.edits_of("rules"))


def check_believed():
    """Each file with lines that are believed is on the page that lists them; the sums are counts of STATED."""
    if os.path.exists(os.path.join(ROOT, "docs/proofs/BELIEVED.md")):
        page = text("docs/proofs/BELIEVED.md")
        for table in counts.believed()[0]:
            wrong.extend("BELIEVED.md lacks %s" % file for file in table if file not in page)


def differ(what, said, there):
    for name in sorted(set(said) | set(there)):
        if said.get(name, 0) != there.get(name, 0):
            wrong.append("%s: of %s it says %s, and there are %d" % (what, name, said.get(name, "nothing"), there.get(name, 0)))


# ---- lists that are whole


def same(what, named, there):
    wrong.extend("%s lacks %s" % (what, n) for n in sorted(set(there) - set(named)))
    wrong.extend("%s names %s, and it isn't there" % (what, n) for n in sorted(set(named) - set(there)))


def table(page, head):
    """The first cells of the rows below a head."""
    return "\n".join(re.findall(r"^\| (.*?) \|", text(page).split(head)[1].split("\n\n")[0], re.M))


def check_lists():
    same("README.md's table of calls", re.findall(r"`(yubi_\w+)`", table("README.md", "| call | ")), counts.exports())
    same("CALLS.md's list of wrong programs a call", re.findall(r"^- `(yubi_\w+)`, rule", text("docs/proofs/CALLS.md"), re.M), counts.exports())
    same("include/yubisorade.h", counts.declared(), counts.exports())
    same("USING.md's demo/", re.findall(r"\bdemo/([\w-]+)", text("docs/USING.md")), counts.streets())
    same("README.md's table of families", table("README.md", "| family | ").split("\n"), counts.families())


def check_all_edits_named():
    if os.path.exists(os.path.join(ROOT, "docs/proofs/EDITS.md")):
        wrong.extend("the edit %s isn't named in EDITS.md" % n for n in sorted(set(counts.edits()) - edits_on(text("docs/proofs/EDITS.md"))))


# ---- names


def edits_on(page):
    """The edits that a page names: CRATE/NAME, and further names of the same crate behind a comma or `and`, each with a bracket behind it or without."""
    there, named = counts.edits(), set()
    further = r"((?:(?: \([^()]*\))?(?: and|,) [a-z_0-9]+(?![\w/`-]))*)"
    for crate, first, more in re.findall(r"(?<![\w/.])(%s)/([a-z_0-9]+)(?![\w/]|\.\w)" % "|".join(CRATES) + further, page):
        if first not in ("specs", "proofs", "src", "data", "stdout", "must-fail"):
            named.add("%s/%s" % (crate, first))
        named |= {"%s/%s" % (crate, name) for name in re.findall(r"[a-z_0-9]+", more) if "%s/%s" % (crate, name) in there}
    return named


def check_edits():
    for page in PAGES:
        wrong.extend("%s names the edit %s, and it isn't there" % (page, n) for n in sorted(edits_on(text(page)) - set(counts.edits())))


def check_crates():
    """`crate` or `crates`, and names in backquotes behind it; those of bindings/ are of Rust."""
    there = set(CRATES) | {"yubisorade"} | set(os.listdir(os.path.join(ROOT, "bindings")))
    for page in PAGES:
        for names in re.findall(r"\bcrates? ((?:`\w+`(?:, | and )?)+)", text(page)):
            wrong.extend("%s names the crate %s, and it isn't there" % (page, n) for n in re.findall(r"`(\w+)`", names) if n not in there)


def check_files():
    """Files of the tree by their path, with or without their ending; NAME stands for any crate."""
    for page in PAGES:
        for path in sorted(set(re.findall(r"(?<![\w/.<])((?:tools|bindings|include|docs|demo|bin|crates)/[\w./-]*\w)", text(page)))):
            if "NAME" not in path and not glob.glob(os.path.join(ROOT, path) + "*"):
                wrong.append("%s names %s, and it isn't there" % (page, path))


def words(source):
    """The names of Rattle or antt that stand in a text, comments left out."""
    return set(re.split(r"[\s(){},;.:=\[\]&<>]+", re.sub(r"(--|//).*", "", source)))


def defined(source):
    """The names that a text of Rattle or antt defines: functions, types, constants; signatures, fields, constructors, records."""
    code = re.findall(r"^\s*(?:pub )?(?:extern \"C\" )?(?:fn|struct|enum|const) (\w+)", source, re.M)
    signed = re.findall(r"^\s*(?:(?:abbrev|unfoldable|pub|record|data) )*([^\s(){},;:]+)(?: \{[^}]*\}| \([^)]*\))* :(?:\s|$)", source, re.M)
    declared = re.findall(r"^\s*(?:abbrev |unfoldable |pub )*(?:record|data) (\S+)", source, re.M)
    return set(code) | set(signed) | set(declared)


PATHS = [p for e in ("antt", "rt") for part in ("src", "specs", "proofs") for p in glob.glob(os.path.join(ROOT, "crates", "*", part, "**", "*." + e), recursive=True)]
SOURCES = {os.path.relpath(p, os.path.join(ROOT, "crates")): words(text(p)) for p in PATHS}
DEFINED = {os.path.relpath(p, os.path.join(ROOT, "crates")): defined(text(p)) for p in PATHS}
# docs/CONTRIBUTING.md: how a name is made
PLACEHOLDERS = set("XIs ToX IsX AllX Xed x_of is_x x_test x_decides x_call x_checks x_place x_refused x_back x_same x_closed".split())


@functools.lru_cache(None)
def outside():
    """The words of header, bindings, tools and commands, the edits' names, and the files' own names."""
    found = PLACEHOLDERS | {name.split("/")[1] for name in counts.edits()} | set(re.findall(r"\w+", text(".ci", "run")))
    for folder in ("include", "bindings", "tools", "bin", "demo", "docs"):
        for path in glob.glob(os.path.join(ROOT, folder, "**"), recursive=True):
            found |= {os.path.basename(path), os.path.basename(path).split(".")[0]}
            if path.endswith((".h", ".c", ".rs", ".sh", ".py")) and not path.endswith(("docs.py", "lies.py")):
                found |= set(re.findall(r"[\w-]+", text(path)))
    return found


def names_in(page):
    """What stands alone in backquotes and looks like a name, with its parts."""
    for name in sorted(set(re.findall(r"`([A-Za-z][\w'?.:-]*)`", page))):
        if not name.startswith("rattle"):
            yield name, [part for part in re.split(r"[.:]+", name) if part]


def check_names():
    crates = set().union(*SOURCES.values()) | set(CRATES)
    anywhere = crates | outside()
    for page in PAGES:
        stand, where = (crates, "crates/") if page in PROOFS else (anywhere, "the tree")
        for name, parts in names_in(text(page)):
            if name not in stand and any(part not in stand for part in parts):
                wrong.append("%s names `%s`, and nothing in %s has that name" % (page, name, where))


@functools.lru_cache(None)
def defined_at(path):
    """The names that are defined in what a page's path stands for: a crate, a folder, or a file without its ending, from any folder on.
    None where there is no such."""
    found = [w for p, w in DEFINED.items() if p.startswith(path + "/") or re.search(r"(^|/)%s(\.\w+|/.*)?$" % re.escape(path), p)]
    return set().union(*found) if found else None


def check_sources():
    """Files and folders below crates/, as a page has them: from the crate on, or from specs/, proofs/ or a folder of rules' laws on.
    A name in capitals stands for any; an edit's name isn't a file's."""
    below = r"(?<![\w/.])((?:(?:%s)/)?(?:specs|proofs|src|Calls|Cantor|Census)(?:/\w+)+(?:\.(?:rt|antt))?)" % "|".join(CRATES)
    for page in PAGES:
        for path in sorted(set(re.findall(below, text(page)))):
            if defined_at(path) is None and path not in counts.edits() and not re.search(r"(^|/)[A-Z]+(/|$)", path):
                wrong.append("%s names %s, and it isn't there" % (page, path))


# `name`, `other` (FILE); FILE `name`, `other`; CRATE `name` at the beginning of a cell or behind a comma, where it is no word of a sentence
NAMED = r"((?:`[^`]+`(?:, | and )?)+)"
BEFORE = re.compile(NAMED + r" ?\(((?:specs|proofs|Calls|Cantor|Census|%s)(?:/\w+)+)(?:\.\w+)?\)" % "|".join(CRATES))
AFTER = re.compile(r"(?:(?<![\w/])((?:specs|proofs|Calls|Cantor|Census|%s)(?:/\w+)+)|(?:\| |; |, )(%s)) %s" % ("|".join(CRATES), "|".join(CRATES), NAMED))


def check_places():
    for page in PAGES:
        said = [(path, names) for names, path in BEFORE.findall(text(page))] + [(path or crate, names) for path, crate, names in AFTER.findall(text(page))]
        for path, names in said:
            stand = defined_at(path)
            for name, parts in names_in(names):
                if stand is not None and parts[-1] not in stand and name not in CRATES:
                    wrong.append("%s says that `%s` stands in %s, and it doesn't" % (page, name, path))


@functools.lru_cache(None)
def code_of(crate):
    """The names that a crate's code defines."""
    return set().union(*(names for path, names in DEFINED.items() if path.startswith(crate + "/src/")))


def check_functions():
    """`CRATE::NAME`, or `CRATE`: `NAME`, `NAME` at the head of a list's item: CRATE's code has them."""
    for page in PAGES:
        said = [(crate, "`%s`" % name) for crate, name in re.findall(r"`(%s)::([\w:]+)`" % "|".join(CRATES), text(page))]
        said += re.findall(r"`(%s)`: %s" % ("|".join(CRATES), NAMED), "\n".join(re.findall(r"^(?:- |\| )(`[\w:]+`.*)", text(page), re.M)))
        for crate, names in said:
            for name, parts in names_in(names):
                if parts[-1] not in code_of(crate):
                    wrong.append("%s says that `%s` stands in the code of %s, and it doesn't" % (page, name, crate))


def check_tour():
    """What a step has in backquotes stands in the step's files, or in specs/ of their crates. A row of the addition has a function and a rule, or its words."""
    for step in re.findall(r"^\d+\. (.*(?:\n   .*)*)", text("docs/TOUR.md"), re.M):
        files = [f.rstrip(".") for f in re.findall(r"(?<![\w/])((?:%s)/[\w/.]+)" % "|".join(CRATES), step)]
        crates = {f.split("/")[0] for f in files}
        stand = set().union(*(w for p, w in SOURCES.items() if p in files or (p.split("/")[0] in crates and p.split("/")[1] == "specs")))
        for name in re.findall(r"`([^`]+)`", step):
            if re.split(r"[.:]+", name)[-1] not in stand and name not in CRATES and not name.startswith("&"):
                wrong.append("TOUR.md names `%s`, and it doesn't stand in %s" % (name, ", ".join(files) or "a file of its step"))
    rows = re.findall(r"^\| (\d+) \| `(\w+)::([\w:]+)` \| .* \| (.*) \|$", text("docs/TOUR.md"), re.M)
    if not rows or len(rows) > 18 or len({crate for _, crate, _, _ in rows}) > 18:
        wrong.append("TOUR.md's addition has %d rows and %d crates, and 1 to 18 are wanted" % (len(rows), len({crate for _, crate, _, _ in rows})))
    specs = set().union(*(names for path, names in DEFINED.items() if "/specs/" in path or "/proofs/" in path))
    for number, crate, _, rule in rows:
        for name in re.findall(r"`([^`]+)`", rule):
            if name not in specs:
                wrong.append("TOUR.md's row %s names the rule `%s`, and no specs/ or proofs/ has it" % (number, name))


def check_links():
    """[words](path), [words](path#heading): from the page's own folder; those to other hosts aren't looked at. Pictures too."""
    for page in EVERY:
        for link in re.findall(r"\]\(([^()\s]+)\)", text(page)):
            if re.match(r"\w+:", link):
                continue
            path, _, heading = link.partition("#")
            to = os.path.normpath(os.path.join(ROOT, os.path.dirname(page), path)) if path else os.path.join(ROOT, page)
            if not os.path.exists(to):
                wrong.append("%s links to %s, and it isn't there" % (page, link))
            elif heading and heading not in [re.sub(r"[^\w\- ]", "", h.lower()).replace(" ", "-") for h in re.findall(r"^#+ (.*)", text(to), re.M)]:
                wrong.append("%s links to %s, and that page has no such heading" % (page, link))


def plain_lines(page):
    """The lines of prose, with their numbers, quotations, brackets and code left out: no tables, headings, code or pictures."""
    fenced = False
    for number, line in enumerate(text(page).split("\n"), 1):
        fenced ^= line.lstrip().startswith("```")
        if not fenced and not re.match(r"\s*(\||#|```|<|!\[)| {4,}(?!.*[a-z]\. [A-Z].*[a-z]\.$)", line):
            yield number, re.sub(r'^\s*(?:\d+\.|-) |"[^"]*"|`[^`]*`|\([^()]*\)', "x", line)


def check_form():
    if text("docs/PROVED.md").count("\n") > 150:
        wrong.append("docs/PROVED.md has %d lines, and 150 are wanted at the most" % text("docs/PROVED.md").count("\n"))
    for page in EVERY:
        wrong.extend("%s, line %d has %d characters, and 160 are wanted at the most" % (page, k, len(l)) for k, l in enumerate(text(page).split("\n"), 1) if len(l) > 160)
        for number, line in plain_lines(page):
            if re.search(r"[a-z0-9)x][.?!] [A-Z][a-z]", line):
                wrong.append("%s, line %d has two sentences, and a line each is wanted" % (page, number))


def check_once():
    """No long line stands again a few lines further on, as merging two branches leaves it."""
    for page in EVERY:
        lines = text(page).split("\n")
        for number, line in enumerate(lines, 1):
            if len(line) > 60 and line in lines[number : number + 12]:
                wrong.append("%s, line %d stands again below: %s" % (page, number, line.strip()))


def check_decisions():
    """Decisions are numbered as they stand. One is cited with its title: docs/DECISIONS.md, NUMBER, "TITLE"; so one that moved is seen. Of every note."""
    found = [(int(n), title.rstrip(".")) for n, title in re.findall(r"^(\d+)\. \*\*(.*?)\*\*", text("docs/DECISIONS.md"), re.M)]
    for place, (number, title) in enumerate(found, 1):
        if number != place:
            wrong.append('DECISIONS.md has "%s" as %d, and it is the decision %d of the page' % (title, number, place))
    titles = dict(found)
    for page in EVERY:
        for number, title in re.findall(r'DECISIONS\.md, (\d+)(?:, "(.*?)")?', flowing(page)):
            if titles.get(int(number)) != title:
                wrong.append('%s cites decision %s as "%s", and its title is "%s"' % (page, number, title, titles.get(int(number), "none")))


def check_contracts():
    """Lines of a contract that a page has are lines of the code."""
    code = {line.strip() for path in PATHS if path.endswith(".rt") for line in text(path).splitlines()}
    for page in PAGES:
        for line in re.findall(r"^ {4,}((?:requires|ensures) \{.*)", text(page), re.M):
            if line.strip() not in code:
                wrong.append("%s has the line `%s`, and no code has it" % (page, line.strip()))


CHECKS = [
    check_counts, check_rule_edits, check_rule_files, check_believed, check_lists, check_all_edits_named, check_edits, check_crates, check_files,
    check_sources, check_names, check_places, check_functions, check_tour, check_once, check_decisions, check_contracts, check_links, check_form,
]  # fmt: skip

if __name__ == "__main__":
    for check in CHECKS:
        check()
    print("\n".join(wrong) if wrong else "README.md and docs/ agree with the tree")
    sys.exit(1 if wrong else 0)
