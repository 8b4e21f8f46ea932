#!/usr/bin/env python3
"""How the cost of a column's calls grows with the group, from the table that growth/main.rs prints (docs/cost_growth.tsv).

    python3 benchmarks/growth.py TABLE.tsv            prints some of its lines
    python3 benchmarks/growth.py TABLE.tsv FILE.svg   draws the picture
"""
import csv
import sys

from drawing import Curve, Panel, decades, svg, write

SHOWN = [4, 7, 10, 13, 16, 19, 22, 25, 28, 31, 32]
TAKE, AGREE, OFF, GOOD, BAD = ("take checks", "close round two, all agree", "close round two, t vectors", "exchange, all good",
                               "exchange, t bad, t vectors")
PROGRAMS = ["library", "plain"]


def read(path):
    """The lines of the table, numbers under their headings, for every n from 4 to 32 with the greatest t."""
    with open(path) as file:
        lines = [{heading: float(cell) for heading, cell in line.items()} for line in csv.DictReader(file, delimiter="\t")]
    assert [(line["n"], line["t"]) for line in lines] == [(n, (n - 1) // 3) for n in range(4, 33)], "other groups than 4 to 32 columns"
    return lines


def cells(line):
    yield f"{line['n']:.0f}, {line['t']:.0f}"
    for call, unit, digits in [(TAKE, 1, 2), (AGREE, 1, 1), (OFF, 1, 1), (GOOD, 1000, 2), (BAD, 1000, 2)]:
        library, plain = (line[f"{program}: {call}"] for program in PROGRAMS)
        yield f"{library / unit:.{digits}f} / {plain / unit:.{digits}f}"


def table(lines):
    yield "Library / plain Rust column over linear equations, w = 8, microseconds, and milliseconds of exchanges:"
    yield ""
    yield f"| n, t | {TAKE} | {AGREE} | {OFF} | {GOOD}, ms | {BAD}, ms |"
    yield "|" + "---|" * 6
    for line in lines:
        if line["n"] in SHOWN:
            yield "| " + " | ".join(cells(line)) + " |"


def panel(lines, left, title, unit, unit_name, calls):
    curves = []
    for call, name, shape in calls:
        for program, dash, filled in [("library", "none", True), ("plain", "5 3", False)]:
            points = [(line["n"], line[f"{program}: {call}"] / unit) for line in lines]
            curves.append(Curve(", ".join(filter(None, [program, name])), points, dash, shape, filled))
    times = [y for curve in curves for _, y in curve.points]
    ticks = decades(min(times), max(times))
    axes = Panel(left, 60, 220, 320, (4, 32), (ticks[0], ticks[-1]), True)
    yield f'<text x="{left + 110}" y="46" text-anchor="middle">{title}</text>'
    yield from axes.axes("columns", unit_name, range(4, 33, 4), ticks, "{:g}".format)
    yield from axes.curves(curves, range(4, 33, 4))


def picture(lines):
    both = [("all good", "circle"), ("t bad", "triangle")]
    parts = [
        panel(lines, 80, "taking a check frame", 1, "microseconds, logarithmic", [(TAKE, "", "circle")]),
        panel(lines, 440, "closing round two", 1, "microseconds, logarithmic", [(call, *how) for call, how in zip([AGREE, OFF], both)]),
        panel(lines, 840, "a whole exchange of n columns", 1000, "milliseconds, logarithmic", [(call, *how) for call, how in zip([GOOD, BAD], both)]),
    ]
    return svg(1190, 430, "Cost by the number of columns, with the greatest t and w = 8; plain: a Rust column over linear equations", parts)


measured = read(sys.argv[1])
if len(sys.argv) > 2:
    write(sys.argv[2], picture(measured))
else:
    print("\n".join(table(measured)))
