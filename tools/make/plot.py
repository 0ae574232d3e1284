#!/usr/bin/env python3
"""plot.py: docs/bench.svg, the works' instructions step by step beside plain Rust, from docs/bench-history.txt.

    python3 tools/make/plot.py             writes it
    python3 tools/make/plot.py --check     writes nothing: it must be what it would write

Every number must stand, with its commas, on the page that the record names as its source.
"""
import math
import re
import sys
from collections import namedtuple

import made
import svg

RECORD = "docs/bench-history.txt"
Panel = namedtuple("Panel", "work left top low high")
WIDTH, PANEL, TALL, LEFT, TOP = 940, 300, 196, 12, 84
PLOT = (46, 34, 178, 130)  # of a panel: left, top, width and height of what is drawn in it
SIZES = ["total of 4,096", "256-bit multiple", "first repeat of 4,096"]
KINDS = ["genus 2", "genus 3, f_6 = 0", "genus 3, f_6 ≠ 0"]
TICKS = [figure * 10**power for power in range(4, 9) for figure in (1, 2, 5)] + [10**9]
COLOUR = {"2^31 - 1": svg.COLOURS[0], "2^61 - 1": svg.COLOURS[1]}


def read_history():
    """The steps in words, and instructions by work, p and step; an error where a source hasn't the number."""
    steps, found = [], {}
    for line in made.text(RECORD).splitlines():
        step = re.fullmatch(r"step \d: (.*)", line)
        if step:
            steps.append(step.group(1))
        elif not line.startswith("#"):
            work, p, at, number, source = line.split("\t")
            if "{:,}".format(int(number)) not in made.text(source):
                raise SystemExit("%s: %s says that %s has %s, and it hasn't" % (RECORD, work, source, "{:,}".format(int(number))))
            found[work, p, at] = int(number)
    return steps, found


def panels(found):
    """A row a size, a column a kind of curve, where the record has the work."""
    for row, size in enumerate(SIZES):
        for column, kind in enumerate(KINDS):
            work = "%s, %s" % (kind, size)
            numbers = [n for (name, _, _), n in found.items() if name == work]
            if numbers:
                low, high = max(t for t in TICKS if t <= min(numbers)), min(t for t in TICKS if t >= max(numbers))
                yield Panel(work, LEFT + column * (PANEL + 8), TOP + row * TALL, low, high)


def place(panel, steps, step, number):
    left, top, width, height = PLOT
    part = math.log(panel.high / number) / math.log(panel.high / panel.low)
    return panel.left + left + width * step / (len(steps) - 1), panel.top + top + height * part


def short(number):
    """The number in thousands or millions, three figures."""
    for unit, words in ((10**6, "M"), (10**3, "k")):
        if number >= unit:
            return ("%.*f" % (max(0, 2 - int(math.log10(number / unit))), number / unit)) + " " + words
    return str(number)


def frame(panel, steps):
    left, top, width, height = PLOT
    yield svg.text(panel.left + 8, panel.top + 20, panel.work, "small")
    for number in (tick for tick in TICKS if panel.low <= tick <= panel.high):
        y = place(panel, steps, 0, number)[1]
        yield svg.path([(panel.left + left, y), (panel.left + left + width, y)], "grid", width=1)
        if number in (panel.low, panel.high) or str(number)[0] == "1":
            yield svg.text(panel.left + left - 6, y + 4, short(number).replace(".00", "").replace(".0", ""), "small soft", "end")
    for step in range(len(steps)):
        yield svg.text(place(panel, steps, step, panel.low)[0], panel.top + top + height + 16, str(step), "small soft", "middle")


def apart(labels, lowest, least=13):
    """Labels from the top, each at least so far below the one before; where they pass the lowest place, up again from there."""
    found = []
    for y, words, colour in sorted(labels):
        found.append([max(y, found[-1][0] + least) if found else y, words, colour])
    for label in reversed(found):
        label[0] = min(label[0], lowest)
        lowest = label[0] - least
    return found


def series(panel, steps, found):
    left, top, width, height = PLOT
    labels = []
    for p, colour in COLOUR.items():
        points = [place(panel, steps, k, found[panel.work, p, str(k)]) for k in range(len(steps)) if (panel.work, p, str(k)) in found]
        plain = found[panel.work, p, "plain"]
        y = place(panel, steps, 0, plain)[1]
        yield svg.path([(panel.left + left, y), (panel.left + left + width, y)], colour=colour, width=1.5, dashes="5 4")
        yield svg.path(points, colour=colour, width=2)
        yield from (svg.dot(*point, colour, 3.5) for point in points)
        labels += [(points[-1][1], short(found[panel.work, p, str(len(steps) - 1)]), colour), (y, short(plain) + " plain", colour)]
    for y, words, colour in apart(labels, panel.top + top + height):
        yield svg.text(panel.left + left + width + 8, y + 4, words, "small", colour=colour)


def legend(x, y):
    for k, (p, colour) in enumerate(COLOUR.items()):
        yield svg.path([(x, y + 18 * k), (x + 26, y + 18 * k)], colour=colour, width=2)
        yield svg.dot(x + 13, y + 18 * k, colour, 3.5)
        yield svg.text(x + 34, y + 4 + 18 * k, "library, p = " + p)
        yield svg.path([(x + 190, y + 18 * k), (x + 216, y + 18 * k)], colour=colour, width=1.5, dashes="5 4")
        yield svg.text(x + 224, y + 4 + 18 * k, "plain Rust, as it is now, p = " + p)


def body(steps, found):
    yield svg.text(LEFT + 8, 28, "Instructions of one call, step by step; each scale goes by powers of ten", "title")
    yield from legend(LEFT + 8, 48)
    for panel in panels(found):
        yield from frame(panel, steps)
        yield from series(panel, steps, found)
    bottom = TOP + len(SIZES) * TALL + 14
    for k, step in enumerate(steps):
        yield svg.text(LEFT + 8, bottom + 17 * k, "%d: %s" % (k, step), "soft")


def main():
    steps, found = read_history()
    height = TOP + len(SIZES) * TALL + 14 + 17 * len(steps) + 4
    drawn = svg.picture(WIDTH, height, "Instructions of the library's calls, step by step, beside plain Rust", body(steps, found))
    return made.settle({"docs/bench.svg": made.lines(drawn)}, sys.argv[1:])


if __name__ == "__main__":
    sys.exit(main())
