"""Curves over named axes, as SVG that is readable in black and white: curves differ by their dashes and marks."""
from math import ceil, floor, log10

SMALL = 12
LABEL_STEP = 15


def svg(width, height, title, parts):
    yield f'<svg xmlns="http://www.w3.org/2000/svg" viewBox="0 0 {width} {height}" font-family="sans-serif" font-size="13">'
    yield f'<rect width="{width}" height="{height}" fill="white"/>'
    yield f'<text x="12" y="20" font-weight="bold">{title}</text>'
    for part in parts:
        yield from part
    yield "</svg>"


def write(path, lines):
    with open(path, "w") as file:
        file.write("\n".join(lines) + "\n")


def mark(shape, filled, x, y):
    fill = "black" if filled else "white"
    if shape == "circle":
        return f'<circle cx="{x:.1f}" cy="{y:.1f}" r="3.2" fill="{fill}" stroke="black"/>'
    corners = {"square": [(-3, -3), (3, -3), (3, 3), (-3, 3)], "triangle": [(-4, 3), (4, 3), (0, -4)], "diamond": [(-4, 0), (0, -4), (4, 0), (0, 4)]}
    points = " ".join(f"{x + dx:.1f},{y + dy:.1f}" for dx, dy in corners[shape])
    return f'<polygon points="{points}" fill="{fill}" stroke="black"/>'


class Curve:
    """A name, its points, and by what it is told from others."""

    def __init__(self, name, points, dash="none", shape="circle", filled=True):
        self.name, self.points, self.dash, self.shape, self.filled = name, points, dash, shape, filled


class Panel:
    """A rectangle of a picture with its own axes, from 0 or, with a logarithmic one, from a power of ten."""

    def __init__(self, left, top, width, height, x_range, y_range, logarithmic=False):
        self.left, self.top, self.width, self.height = left, top, width, height
        self.x_range, self.y_range, self.logarithmic = x_range, y_range, logarithmic

    def x(self, value):
        low, high = self.x_range
        return self.left + self.width * (value - low) / (high - low)

    def y(self, value):
        (low, high), scale = self.y_range, log10 if self.logarithmic else float
        part = (scale(value) - scale(low)) / (scale(high) - scale(low))
        return self.top + self.height * (1 - part)

    def axes(self, x_name, y_name, x_ticks, y_ticks, shown="{:,}".format):
        right, bottom = self.left + self.width, self.top + self.height
        for value in y_ticks:
            yield f'<line x1="{self.left}" x2="{right}" y1="{self.y(value):.1f}" y2="{self.y(value):.1f}" stroke="#ccc"/>'
            yield f'<text x="{self.left - 6}" y="{self.y(value) + 4:.1f}" text-anchor="end" font-size="{SMALL}">{shown(value)}</text>'
        for value in x_ticks:
            yield f'<text x="{self.x(value):.1f}" y="{bottom + 16}" text-anchor="middle" font-size="{SMALL}">{value}</text>'
        widest = 8 * max(len(shown(value)) for value in y_ticks)
        yield f'<text x="{self.left + self.width / 2:.1f}" y="{bottom + 34}" text-anchor="middle">{x_name}</text>'
        where = f"translate({self.left - 12 - widest},{self.top + self.height / 2:.1f}) rotate(-90)"
        yield f'<text transform="{where}" text-anchor="middle">{y_name}</text>'

    def curves(self, curves, marks_at):
        for curve in curves:
            path = " ".join(f"{self.x(x):.1f},{self.y(y):.1f}" for x, y in curve.points)
            yield f'<polyline points="{path}" fill="none" stroke="black" stroke-width="1.4" stroke-dasharray="{curve.dash}"/>'
            for x, y in curve.points:
                if x in marks_at:
                    yield mark(curve.shape, curve.filled, self.x(x), self.y(y))
        yield from self.names(curves)

    def names(self, curves):
        """Behind the ends of the curves, none nearer to the next than a line's height; above the end of one that stops before the others."""
        last, lowest = self.x_range[1], float("inf")
        for curve in sorted(curves, key=lambda curve: curve.points[-1][1]):
            x, y = curve.points[-1]
            if x < last:
                yield f'<text x="{self.x(x):.1f}" y="{self.y(y) - 8:.1f}">{curve.name}</text>'
            else:
                lowest = min(self.y(y) + 4, lowest - LABEL_STEP)
                yield f'<text x="{self.x(x) + 8:.1f}" y="{lowest:.1f}">{curve.name}</text>'


def decades(low, high):
    """The powers of ten from the last that is not above the one to the first that is not below the other."""
    return [10.0**power for power in range(floor(log10(low)), ceil(log10(high)) + 1)]
