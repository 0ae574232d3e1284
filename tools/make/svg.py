"""svg.py: what the two pictures share. Each has its own background and letters, light or dark as the page's reader has set."""
from xml.sax.saxutils import escape

COLOURS = ["#3b82c4", "#d9730d", "#3f9142", "#a05195", "#d14343", "#2a9d8f", "#8d6e53", "#9a8500"]
STYLE = """
text { font-family: system-ui, "DejaVu Sans", Arial, sans-serif; font-size: 12px; fill: #1f2328; }
.page { fill: #ffffff; stroke: #d0d7de; }
.box { fill: #f6f8fa; stroke: #d0d7de; }
.rule { stroke: #8c959f; fill: none; }
.grid { stroke: #d8dee4; fill: none; }
.title { font-size: 15px; font-weight: 600; }
.soft { fill: #57606a; }
.small { font-size: 11px; }
.mono { font-family: ui-monospace, "DejaVu Sans Mono", Menlo, Consolas, monospace; font-size: 12px; }
@media (prefers-color-scheme: dark) {
text { fill: #e6edf3; }
.page { fill: #0d1117; stroke: #3d444d; }
.box { fill: #161b22; stroke: #3d444d; }
.rule { stroke: #9198a1; }
.grid { stroke: #2a313c; }
.soft { fill: #9198a1; }
}
"""


def picture(width, height, title, body):
    """The lines of a whole picture, with its title for those who can't see it."""
    yield '<svg xmlns="http://www.w3.org/2000/svg" width="%d" height="%d" viewBox="0 0 %d %d" role="img">' % (width, height, width, height)
    yield "<title>%s</title>" % escape(title)
    yield "<style>%s</style>" % STYLE
    yield rect(0.5, 0.5, width - 1, height - 1, "page", 8)
    yield from body
    yield "</svg>"


def text(x, y, words, kind="", anchor="start", colour=None):
    paint = ' style="fill: %s"' % colour if colour else ""
    return '<text x="%g" y="%g" class="%s" text-anchor="%s"%s>%s</text>' % (x, y, kind, anchor, paint, escape(words))


def rect(x, y, width, height, kind, round_by=0):
    return '<rect x="%g" y="%g" width="%g" height="%g" rx="%g" class="%s"/>' % (x, y, width, height, round_by, kind)


def path(points, kind="", colour=None, width=1.5, dashes=None):
    """A line through points."""
    words = "M" + " L".join("%g %g" % point for point in points)
    paint = (' stroke="%s" fill="none"' % colour if colour else "") + (' stroke-dasharray="%s"' % dashes if dashes else "")
    return '<path d="%s" class="%s" stroke-width="%g"%s/>' % (words, kind, width, paint)


def dot(x, y, colour, radius=4):
    return '<circle cx="%g" cy="%g" r="%g" fill="%s"/>' % (x, y, radius, colour)


def arrow_left(x, y, colour):
    """The head of an arrow that ends at x, y from the right."""
    return '<path d="M%g %g l9 -5 v10 z" fill="%s"/>' % (x, y, colour)
