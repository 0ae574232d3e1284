#!/usr/bin/env python3
"""number_table.py: include/numbers.txt, the one table of the numbers, in the files that have it too, and the version of the file VERSION in the header.

    python3 tools/make/number_table.py             writes the table and the enum of include/yubisorade.h, its version, and include/yubisorade_words.h
    python3 tools/make/number_table.py --check     writes nothing: they must be what it would write, and crates/refusals and bindings/rust must have these
                                                   numbers and this advice
"""
import os
import re
import sys
import textwrap

ROOT = os.path.normpath(os.path.join(os.path.dirname(os.path.abspath(__file__)), "..", ".."))
HEADER = "include/yubisorade.h"
WORDS = "include/yubisorade_words.h"
PROGRAMS = {1, 2, 3, 4, 5, 6, 7, 8, 9, 10, 11, 14, 16, 17, 18, 25}  # documents 01 and 02: what the two programs give
CAUSE, ADVICE = 54, 58  # columns of the header's table


def text(name):
    with open(os.path.join(ROOT, name), encoding="utf-8") as file:
        return file.read()


def rows():
    """Each row as number, name, cause, advice, words of the programs."""
    lines = [line for line in text("include/numbers.txt").splitlines() if not line.startswith("#")]
    parts = [line.split("|") for line in lines]
    return [(int(number), name, cause, advice, words) for number, name, cause, advice, words in parts]


def table():
    """The table in the header's comment."""
    lines = [" *   no.  %-*s %s" % (CAUSE, "given exactly when", "what a crew should do")]
    for number, _, cause, advice, _ in rows():
        causes, advices = textwrap.wrap(cause, CAUSE - 1), textwrap.wrap(advice, ADVICE)
        for i in range(max(len(causes), len(advices))):
            left, right = (part[i] if i < len(part) else "" for part in (causes, advices))
            lines.append((" *   %3s  %-*s %s" % ("" if i else number, CAUSE, left, right)).rstrip())
    return "\n".join(lines) + "\n"


def enum():
    names = ["    YUBI_%s = %d" % (name, number) for number, name, _, _, _ in rows()]
    return "typedef enum YubiNumber {\n" + ",\n".join(names) + "\n} YubiNumber;\n"


def replaced(content, pattern, new):
    """The content with the one place of a pattern replaced."""
    found = re.findall(pattern, content, re.S | re.M)
    if len(found) != 1:
        raise SystemExit("%s: %d places of %s" % (HEADER, len(found), pattern))
    return re.sub(pattern, lambda _: new, content, flags=re.S | re.M)


def header():
    content = replaced(text(HEADER), r"^ \*   no\.  given exactly when.*?(?=^ \*\n)", table())
    content = replaced(content, r"^typedef enum YubiNumber \{.*?\} YubiNumber;\n", enum())
    return replaced(content, r'^#define YUBI_VERSION "[^"]*"\n', '#define YUBI_VERSION "%s"\n' % text("VERSION").strip())


def function(name, comment, words, otherwise):
    lines = ["/* %s */" % comment, "static inline const char *%s(uint64_t number)" % name, "{", "    switch (number) {"]
    for row in rows():
        lines += ["    case YUBI_%s:" % row[1], '        return "%s";' % words(row)]
    return "\n".join(lines + ["    default:", '        return "%s";' % otherwise, "    }", "}"]) + "\n"


def words_header():
    return (
        "/*\n * yubisorade_words.h: the numbers of yubisorade.h in words, for a screen or a log. Needs nothing of the library.\n"
        " * Made from numbers.txt by tools/make/number_table.py.\n */\n"
        '#ifndef YUBISORADE_WORDS_H\n#define YUBISORADE_WORDS_H\n\n#include "yubisorade.h"\n\n'
        + function("yubi_cause", "When a number is given.", lambda row: row[2], "no number of this table")
        + "\n"
        + function("yubi_advice", "What a crew should do.", lambda row: row[3], "ask the office for a newer tablet, and report the number")
        + "\n#endif\n"
    )


def faults_of_table():
    numbers = [row[0] for row in rows()]
    if numbers != list(range(28)):
        yield "include/numbers.txt: the numbers aren't 0 to 27"
    for number, name, cause, advice, words in rows():
        if not re.fullmatch(r"[A-Z]+(_[A-Z]+)*", name) or not cause or not advice:
            yield "include/numbers.txt: %d has no name, cause or advice" % number
        if not (cause + advice).isascii() or '"' in cause + advice or "\\" in cause + advice:
            yield "include/numbers.txt: %d has letters that a C header can't hold" % number
        if bool(words) != (number in PROGRAMS):
            yield "include/numbers.txt: %d has words of the programs and isn't theirs, or hasn't and is" % number


def faults_of_code():
    """The numbers that refuse, in the one crate that has them; the advice, in the Rust crate's sources."""
    refusals = re.findall(r"^    \w+ = (\d+),", text("crates/refusals/src/lib.rt").split("pub enum Refusal {")[1].split("}")[0], re.M)
    if [int(number) for number in refusals] != list(range(1, 28)):
        yield "crates/refusals: its numbers aren't 1 to 27"
    rust = re.sub(r"\\\n\s*", "", text("bindings/rust/src/refusal.rs"))
    if "fn advice(" in rust:
        for number, _, _, advice, _ in rows()[1:]:
            if number not in (16, 17) and '"%s"' % advice not in rust:
                yield "bindings/rust/src/refusal.rs hasn't the advice of %d" % number


def main():
    made = {HEADER: header(), WORDS: words_header()}
    if sys.argv[1:] == ["--check"]:
        faults = list(faults_of_table()) + list(faults_of_code())
        faults += ["%s isn't what include/numbers.txt and VERSION make it" % name for name, content in made.items() if text(name) != content]
        print("\n".join(faults) if faults else "numbers: %d in one table, and the same in the header, the words, the crates" % len(rows()))
        return 1 if faults else 0
    for name, content in made.items():
        with open(os.path.join(ROOT, name), "w", encoding="utf-8") as file:
            file.write(content)
    return 0


if __name__ == "__main__":
    sys.exit(main())
