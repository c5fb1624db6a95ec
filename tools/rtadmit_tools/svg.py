"""Pictures as texts of SVG: elements, round scales, and the whole text."""
import itertools
from xml.sax.saxutils import escape

INK, GREY, FAINT = "#222222", "#666666", "#dddddd"


def step_of(length, most):
    """A round distance of the scale's marks, of which at most so many fit into a length."""
    steps = (factor * 10**power for power in itertools.count() for factor in (1, 2, 5))
    return next(step for step in steps if length <= most * step)


def marks(first, last, most):
    step = step_of(last - first, max(1, most))
    return range(-(-first // step) * step, last + 1, step)


class Canvas:
    """The elements of a picture, one a line, and how far its texts reach to the right, with wide letters taken as wide."""

    def __init__(self):
        self.lines, self.reach = [], 0

    def text(self, x, y, text, anchor="start", fill=INK, size=12, more=""):
        if anchor == "start":
            self.reach = max(self.reach, x + size * sum(1 if letter in "MWmw" else 0.64 for letter in text))
        place = f'x="{x:.2f}" y="{y:g}" text-anchor="{anchor}"'
        self.lines.append(f'<text {place} fill="{fill}" font-size="{size}" {more}>{escape(text)}</text>')

    def line(self, x1, y1, x2, y2, stroke, width=1, more=""):
        self.lines.append(f'<line x1="{x1:.2f}" y1="{y1:g}" x2="{x2:.2f}" y2="{y2:g}" stroke="{stroke}" stroke-width="{width}" {more}/>')

    def rect(self, x, y, width, height, fill, more=""):
        self.lines.append(f'<rect x="{x:.2f}" y="{y:g}" width="{width:.2f}" height="{height:g}" fill="{fill}" {more}/>')

    def circle(self, x, y, radius, fill, more=""):
        self.lines.append(f'<circle cx="{x:.2f}" cy="{y:.2f}" r="{radius}" fill="{fill}" {more}/>')

    def ring(self, x, y, colour):
        self.circle(x, y, 4.5, "white", f'stroke="{colour}" stroke-width="2"')

    def title(self, name, about):
        self.text(12, 24, name, size=16, more='font-weight="bold" font-family="monospace"')
        self.text(12, 44, about, fill=GREY)

    def path(self, told, more):
        self.lines.append(f'<path d="{told}" {more}/>')

    def whole(self, width, height, front=""):
        """The text of the picture; `front` stands behind its head, for patterns."""
        size = f'width="{width}" height="{height}"'
        head = f'<svg xmlns="http://www.w3.org/2000/svg" {size} viewBox="0 0 {width} {height}" font-family="sans-serif">'
        return "\n".join([head, *[front] * bool(front), f'<rect {size} fill="white"/>', *self.lines, "</svg>", ""])


class Plot:
    """A part of a picture with axes of its own: values from the left to the right, and values from below."""

    OUTSIDE = 12

    def __init__(self, canvas, left, top, width, height, across, up):
        self.canvas, self.left, self.top, self.width, self.height = canvas, left, top, width, height
        (self.begin, self.end), (self.low, self.high) = across, up
        self.bottom = top + height
        # where the picture ends, so that its last mark fits
        self.right = left + width + max(28, 4 * len(str(self.end)) + 8)

    def x(self, value):
        return self.left + self.width * (value - self.begin) / (self.end - self.begin)

    def y(self, value):
        """A level; what lies outside ends a little outside."""
        level = self.top + self.height * (self.high - value) / (self.high - self.low)
        return min(max(level, self.top - self.OUTSIDE), self.bottom + self.OUTSIDE)

    def scales(self, levels, what):
        """The marks of both axes: round numbers below, and levels with their texts at the left; and what the lower axis counts."""
        for value in marks(self.begin, self.end, self.width // (8 * len(str(self.end)) + 16)):
            self.canvas.line(self.x(value), self.top, self.x(value), self.bottom + 4, FAINT)
            self.canvas.text(self.x(value), self.bottom + 17, str(value), "middle", size=11)
        for level, text in levels:
            self.canvas.line(self.left - 4, self.y(level), self.left + self.width, self.y(level), FAINT)
            self.canvas.text(self.left - 8, self.y(level) + 4, text, "end", size=11)
        self.canvas.text(self.left + self.width, self.bottom + 33, what, "end", GREY, 11)

    def frame(self):
        self.canvas.line(self.left, self.top, self.left, self.bottom, INK)
        self.canvas.line(self.left, self.bottom, self.left + self.width, self.bottom, INK)
