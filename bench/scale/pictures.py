"""Pictures as SVG: plots with lines and dots on linear or logarithmic axes, on white, so that any theme shows them."""

import math
import xml.sax.saxutils

COLOURS = ("#1f77b4", "#b3501a", "#2a7f2a", "#7a4fb0")
FRAME = 'font-family="sans-serif" font-size="13" fill="#222"'


class Picture:
    def __init__(self, width, height, title, described):
        self.lines = [
            f'<svg xmlns="http://www.w3.org/2000/svg" viewBox="0 0 {width} {height}" width="{width}" height="{height}" '
            f'role="img" aria-labelledby="t d" {FRAME}>',
            f'<title id="t">{escaped(title)}</title>',
            f'<desc id="d">{escaped(described)}</desc>',
            f'<rect width="{width}" height="{height}" fill="#fff"/>',
        ]

    def text(self, x, y, words, anchor="start", more=""):
        self.lines.append(f'<text x="{x:.1f}" y="{y:.1f}" text-anchor="{anchor}" {more}>{escaped(words)}</text>')

    def path(self, points, colour, width=2, more=""):
        way = "L".join(f"{x:.1f} {y:.1f}" for x, y in points)
        self.lines.append(f'<path d="M{way}" fill="none" stroke="{colour}" stroke-width="{width}" {more}/>')

    def dot(self, x, y, colour, size=4, fill=None):
        self.lines.append(f'<circle cx="{x:.1f}" cy="{y:.1f}" r="{size}" fill="{fill or colour}" stroke="{colour}" '
                          'stroke-width="1.5"/>')

    def save(self, path):
        path.write_text("\n".join(self.lines) + "\n</svg>\n")


class Axis:
    """Places on a picture for the values between two ends. `marks` are values to write there, with their words."""

    def __init__(self, low, high, begin, end, marks, logarithmic=True):
        self.scale = math.log if logarithmic else float
        self.low, self.high, self.begin, self.end, self.marks = low, high, begin, end, marks

    def place(self, value):
        low, high = self.scale(self.low), self.scale(self.high)
        inside = self.scale(min(max(value, self.low), self.high))
        return self.begin + (inside - low) / (high - low) * (self.end - self.begin)


class Plot:
    """A plot on a picture. Values beyond the ends of an axis are drawn at its ends."""

    def __init__(self, picture, across, up, across_name, up_name, heading=""):
        self.picture, self.across, self.up = picture, across, up
        for value, words in across.marks:
            x = across.place(value)
            picture.path([(x, up.begin), (x, up.end)], "#e4e4e4", 1)
            picture.text(x, up.begin + 18, words, "middle")
        for value, words in up.marks:
            y = up.place(value)
            picture.path([(across.begin, y), (across.end, y)], "#e4e4e4", 1)
            picture.text(across.begin - 7, y + 4, words, "end")
        picture.path([(across.begin, up.end), (across.begin, up.begin), (across.end, up.begin)], "#666", 1)
        picture.text((across.begin + across.end) / 2, up.begin + 38, across_name, "middle")
        picture.text(across.begin, up.end - 10, up_name)
        picture.text((across.begin + across.end) / 2, up.end - 32, heading, "middle", 'font-weight="bold"')

    def line(self, points, colour, width=2, more=""):
        self.picture.path([(self.across.place(x), self.up.place(y)) for x, y in points], colour, width, more)

    def dots(self, points, colour, fill=None):
        for x, y in points:
            self.picture.dot(self.across.place(x), self.up.place(y), colour, fill=fill)

    def name(self, x, y, words, colour, anchor="start"):
        self.picture.text(self.across.place(x), self.up.place(y), words, anchor, f'fill="{colour}"')


def escaped(words):
    return xml.sax.saxutils.escape(words)
