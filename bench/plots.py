"""plots.py: bars and lines on logarithmic axes, written as SVG by hand."""
import math
from xml.sax.saxutils import escape

COLORS = ("#9aa0a6", "#1f5fa8", "#4c93d9", "#9cc4ec", "#2a7f4f", "#72bf8c", "#d0812b", "#a33c3c")
FONT = 'font-family="sans-serif" font-size="11" fill="#222"'


def powers(low, high):
    """The powers of ten from below `low` to above `high`."""
    first, last = math.floor(math.log10(low)), math.ceil(math.log10(high))
    return [10.0 ** k for k in range(first, max(last, first + 1) + 1)]


def named(value):
    """A power of ten as a short text."""
    k = round(math.log10(value))
    return f"{10 ** k}" if 0 <= k <= 3 else f"{value:g}" if -3 <= k < 0 else f"1e{k}"


class Axis:
    """A logarithmic axis between two places of the picture."""

    def __init__(self, values, start, end):
        self.ticks = powers(min(values), max(values))
        self.low, self.high = math.log10(self.ticks[0]), math.log10(self.ticks[-1])
        self.start, self.end = start, end

    def __call__(self, value):
        return self.start + (math.log10(value) - self.low) / (self.high - self.low) * (self.end - self.start)


class Picture:
    def __init__(self, width, height, title):
        self.width, self.height = width, height
        self.parts = []
        self.text(12, 20, title, weight="bold")

    def text(self, x, y, words, anchor="start", weight="normal"):
        self.parts.append(f'<text x="{x:.1f}" y="{y:.1f}" text-anchor="{anchor}" font-weight="{weight}" {FONT}>{escape(words)}</text>')

    def box(self, x, y, width, height, color):
        self.parts.append(f'<rect x="{x:.1f}" y="{y:.1f}" width="{width:.1f}" height="{height:.1f}" fill="{color}"/>')

    def line(self, points, color, width=1.0):
        at = " ".join(f"{x:.1f},{y:.1f}" for x, y in points)
        self.parts.append(f'<polyline points="{at}" fill="none" stroke="{color}" stroke-width="{width}"/>')

    def dot(self, x, y, color):
        self.parts.append(f'<circle cx="{x:.1f}" cy="{y:.1f}" r="3" fill="{color}"/>')

    def write(self, path):
        head = f'<svg xmlns="http://www.w3.org/2000/svg" width="{self.width}" height="{self.height}" viewBox="0 0 {self.width} {self.height}">'
        with open(path, "w") as file:
            file.write("\n".join([head, f'<rect width="{self.width}" height="{self.height}" fill="#fff"/>'] + self.parts + ["</svg>", ""]))


def legend(picture, names, colors, x, y):
    for name in names:
        picture.box(x, y - 9, 10, 10, colors[name])
        picture.text(x + 14, y, name)
        x += 26 + 6.5 * len(name)


def bars(path, title, unit, groups):
    """Groups are (name, [(series, value)]); a bar for each value, on one logarithmic axis."""
    names = list(dict.fromkeys(series for _, rows in groups for series, _ in rows))
    colors = {name: COLORS[i % len(COLORS)] for i, name in enumerate(names)}
    height = 80 + sum(11 * len(rows) + 14 for _, rows in groups)
    picture = Picture(900, height, title)
    legend(picture, names, colors, 12, 40)
    axis = Axis([value for _, rows in groups for _, value in rows], 170, 820)
    for tick in axis.ticks:
        picture.line([(axis(tick), 52), (axis(tick), height - 24)], "#ddd")
        picture.text(axis(tick), height - 10, named(tick) + " " + unit, "middle")
    y = 58
    for name, rows in groups:
        picture.text(160, y + 11 * len(rows) / 2 + 4, name, "end")
        for series, value in rows:
            picture.box(axis.start, y, max(axis(value) - axis.start, 1), 9, colors[series])
            picture.text(axis(value) + 4, y + 9, f"{value:.3g}")
            y += 11
        y += 14
    picture.write(path)


def panel(picture, name, lines, left, top):
    """Lines are (series, [(x, y)]), on logarithmic axes."""
    points = [point for _, row in lines for point in row]
    colors = {series: COLORS[(1, 6)[i % 2]] for i, (series, _) in enumerate(lines)}
    across = Axis([x for x, _ in points], left + 60, left + 360)
    up = Axis([y for _, y in points], top + 320, top + 40)
    picture.text(left + 60, top + 8, name, weight="bold")
    legend(picture, list(colors), colors, left + 60, top + 26)
    for tick in across.ticks:
        picture.line([(across(tick), up.start), (across(tick), up.end)], "#ddd")
        picture.text(across(tick), up.start + 16, named(tick), "middle")
    for tick in up.ticks:
        picture.line([(across.start, up(tick)), (across.end, up(tick))], "#ddd")
        picture.text(across.start - 6, up(tick) + 4, named(tick) + " s", "end")
    for series, row in lines:
        picture.line([(across(x), up(y)) for x, y in row], colors[series], 1.8)
        for x, y in row:
            picture.dot(across(x), up(y), colors[series])


def panels(path, title, parts):
    """Parts are (name, lines); one panel each, side by side."""
    picture = Picture(40 + 390 * len(parts), 410, title)
    for i, (name, lines) in enumerate(parts):
        panel(picture, name, lines, 390 * i, 50)
    picture.write(path)
