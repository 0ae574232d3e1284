#!/usr/bin/env python3
"""lies.py: whether docs.py sees a page that lies. Lies are put into the pages in memory, and docs.py must say a line for each that it doesn't say of the
pages as they are. Exit 1 and a line for each lie that passes. It reads, and writes nothing."""
import functools
import re
import sys

import docs
from docs import PAGES, STATED

there = docs.text
passed, tried = [], 0


def said(check):
    docs.wrong.clear()
    check()
    return set(docs.wrong)


@functools.lru_cache(None)
def said_of_true(check):
    return said(check)


def lies(check, changes):
    """`changes` has for a page what makes the lie of its text, and the words that the line about it must have."""
    global tried
    tried += len(changes)
    before = said_of_true(check)
    changed = {page: change(there(page)) for page, change, _ in changes}
    docs.text = lambda *path: changed.get("/".join(path)) or there(*path)
    new = said(check) - before
    docs.text = there
    for page, _, words in changes:
        if changed[page] == there(page):
            passed.append("%s: nothing in %s to be changed" % (check.__name__, page))
        elif not any(all(word in line for word in words) for line in new):
            passed.append("%s doesn't see %s in %s" % (check.__name__, " ".join(words), page))


def lie(check, page, change, *words):
    lies(check, [(page, change, words)])


def everywhere(check, line, words):
    """A line that any page could have."""
    lies(check, [(page, lambda p: p + "\n" + line + "\n", (page.split("/")[-1], words)) for page in PAGES])


def numbers():
    """Each number that a page states turned into another; and its words gone."""

    def turned(page, text):
        for words in [words for p, words, _ in STATED if p == page]:
            pattern = docs.NUMBER.join(re.escape(part).replace("\\ ", r"\s+") for part in re.split(r"\bN\b", words))
            text = re.sub(pattern, lambda m: m.group(0).replace(m.group(1), "12345", 1), text, flags=re.I)
        return text

    lies(docs.check_counts, [(page, functools.partial(turned, page), (page, words, "12345")) for page, words, _ in STATED])
    lie(docs.check_counts, "docs/PROVED.md", lambda p: p.replace("lines of ring laws", "laws"), "any more")
    lie(docs.check_rule_edits, "docs/proofs/CALLS.md", lambda p: re.sub(r"\w+(-\w+)? change a definition", "Ten change a definition", p), "ten edits")
    lie(docs.check_rule_files, "docs/proofs/CALLS.md", lambda p: re.sub(r"Of the edits of `rules` \w+", "Of the edits of `rules` ninety", p), "by file")


def lists():
    lie(docs.check_lists, "README.md", lambda p: re.sub(r"^\| `yubi_add`.*\n", "", p, flags=re.M), "lacks yubi_add")
    lie(docs.check_lists, "README.md", lambda p: p.replace("| `yubi_add`", "| `yubi_nothing`"), "yubi_nothing")
    lie(docs.check_lists, "README.md", lambda p: re.sub(r"^\| poly \|.*\n", "", p, flags=re.M), "families lacks poly")
    lie(docs.check_lists, "docs/proofs/CALLS.md", lambda p: p.replace("- `yubi_add`, rule", "- `yubi_nothing`, rule"), "lacks yubi_add")
    lie(docs.check_lists, "docs/USING.md", lambda p: p.replace("demo/damaged-list", "demo/no-list"), "lacks damaged-list")
    lie(docs.check_all_edits_named, "docs/proofs/EDITS.md", lambda p: p.replace("previous_handed_back", "x"), "previous_handed_back")
    lie(docs.check_believed, "docs/proofs/BELIEVED.md", lambda p: p.replace("specs/Sum", "specs/Other"), "specs/Sum")


def names():
    everywhere(docs.check_edits, "rules/no_such_edit", "no_such_edit")
    everywhere(docs.check_crates, "crate `no_such_crate`", "no_such_crate")
    everywhere(docs.check_files, "tools/no_such.py", "tools/no_such.py")
    everywhere(docs.check_files, "docs/NO_SUCH.md", "docs/NO_SUCH.md")
    everywhere(docs.check_sources, "rules/specs/Nothing", "rules/specs/Nothing")
    everywhere(docs.check_sources, "tablet/src/nothing.rt", "tablet/src/nothing.rt")
    everywhere(docs.check_names, "`no_such_law`", "no_such_law")
    everywhere(docs.check_places, "`add_call` (rules/specs/Sum)", "add_call")
    everywhere(docs.check_places, "rules/specs/Sum `add_call`", "add_call")
    everywhere(docs.check_functions, "`jacobian::no_such`", "no_such")
    everywhere(docs.check_functions, "- `jacobian`: `no_such`, `sum`: what they do.", "no_such")
    everywhere(docs.check_links, "[words](no/such/page.md)", "no/such/page.md")
    everywhere(docs.check_links, "[words](#no-such-heading)", "no-such-heading")
    everywhere(docs.check_decisions, 'docs/DECISIONS.md, 7, "Another title"', "Another title")
    everywhere(docs.check_contracts, "    ensures { result ≡ nothing }", "nothing")
    everywhere(docs.check_form, "word " * 40, "characters")
    everywhere(docs.check_form, "This is one sentence. That is another.", "two sentences")
    lie(docs.check_names, "docs/PROVED.md", lambda p: p + "\n`rust_program`\n", "rust_program")  # a name of tools/ on a page of proofs


def forms():
    lie(docs.check_decisions, "docs/DECISIONS.md", lambda p: p.replace("\n8. **", "\n9. **"), "the decision 8 of the page")
    lie(docs.check_form, "docs/PROVED.md", lambda p: p + "\n" * 151, "lines, and 150")
    lie(docs.check_once, "docs/TOUR.md", lambda p: p + "\n" + ("A sentence of more than sixty characters that a merge has left twice.\n" * 2), "stands again")
    lie(docs.check_tour, "docs/TOUR.md", lambda p: p + "\n1. tablet/src/lib.rt, `no_such_function`: a step.\n", "no_such_function")
    lie(docs.check_tour, "docs/TOUR.md", lambda p: p.replace("| `add_call` |", "| `no_call` |"), "no_call")
    row = "| 19 | `poly::add` | two Polys | Poly | the sum in K[x] (`Is`) |"
    lie(docs.check_tour, "docs/TOUR.md", lambda p: re.sub(r"^\| 18 \|.*", lambda m: m.group(0) + "\n" + row, p, flags=re.M), "19 rows")


if __name__ == "__main__":
    for kind in (numbers, lists, names, forms):
        kind()
    print("\n".join(passed) if passed else "%d lies in pages, each of them seen" % tried)
    sys.exit(1 if passed else 0)
