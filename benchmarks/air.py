#!/usr/bin/env python3
"""Bytes on the air for one exchange: the coded one of this library, the plain one that sends whole vectors, and what the exchanges of the
source documents 000, 002 and 003 would send by their own formulas.

    python3 benchmarks/air.py            prints the tables
    python3 benchmarks/air.py FOLDER     draws the pictures, bytes_on_the_air.svg and bytes_by_document.svg

On the air each column sends one frame a round, with a header of 4 bytes, which all others hear. In round one a frame has 4 + w bytes; in
rounds two and three 4 + 2tw with check values, and 4 + nw with a whole vector, as in gradecast by every column at once (001, Table 1).

The other documents send one value to all, so that n of them run side by side, a column's parts of all in one frame. Where a document codes
a value and sends each receiver a symbol of its own, the frame has the value itself, which is shorter than all symbols, and each receiver
works its symbol out. Bits are added up and divided by 8 at the end. None of the documents has signatures.
"""
import sys
from functools import lru_cache
from math import ceil, log2

from drawing import Curve, Panel, decades, svg, write

HEADER = 4


def most_bad(n):
    return (n - 1) // 3


def coded(n, t, w):
    return n * ((HEADER + w) + 2 * (HEADER + 2 * t * w))


def plain(n, w):
    return n * ((HEADER + w) + 2 * (HEADER + n * w))


def together(n, rounds, bits_of_one):
    """The bytes of n values sent side by side, with the headers of so many rounds."""
    return HEADER * n * rounds + ceil(n * bits_of_one / 8)


def symbol_bits(n, t, w):
    """c of 000 (6) and 003 (5), with k = floor(t/5) + 1 as both have it where they add up."""
    return ceil(max(8 * w, (t / 5 + 1) * log2(n + 1)) / (t // 5 + 1))


def rounds_000(n, t):
    """The leader's value, symbols, three times success indicators, t + 1 of the one-bit consensus, symbols; and telling the others."""
    return 1 + 1 + 3 + (t + 1) + 1 + (n > 3 * t + 1)


def bits_000(n, t, w, to_each):
    """000, section VII and Remarks 1 to 8, among 3t + 1 columns, which tell the others (Lemma 1); to_each says whether every receiver counts."""
    m, others = 3 * t + 1, n - (3 * t + 1)
    c = symbol_bits(m, t, w)
    if to_each:
        pairs = m * (m - 1)
        return 8 * w * (m - 1) + 2 * c * pairs + 3 * pairs + m * t + c * pairs + m * others * c
    return 8 * w + m * 8 * w + 3 * m + m * t + m * c + (m * c if others else 0)


ROUNDS_003 = 7


def bits_003(n, t, w, to_each):
    """003, section V and Remarks 1 to 7."""
    c = symbol_bits(n, t, w)
    if to_each:
        pairs = n * (n - 1)
        return 8 * w * (n - 1) + 2 * c * pairs + 2 * pairs + (1 + c) * pairs + n * n + c * pairs
    return 8 * w + n * 8 * w + 2 * n + n * (1 + 8 * w) + n * n + n * c


def bits_002(n, t, bits, to_each):
    """002 (27) for one source, with symbols no smaller than (28) lets them be, and in each round the code that sends least."""

    @lru_cache(None)
    def forwarded(round_number, size):
        if round_number == t:
            return (n - t - 1 if to_each else 1) * size
        return min(coded_by(k, round_number, size) for k in range(1, n - round_number - 2 * t))

    def coded_by(k, round_number, size):
        symbols = k + 2 * t
        symbol = size if k == 1 else max(ceil(size / k), ceil(log2(symbols - 1)))
        sent = symbols * symbol if to_each else size
        return sent + symbols * forwarded(round_number + 1, symbol)

    return forwarded(0, bits)


def check_002():
    """The bits of 002's own table (section 5, maximal coding), relative to the value's: N, T, the value's bits, and #mess."""
    for n, t, bits, messages in [(4, 1, 1, "9.0"), (6, 1, 6, "8.3"), (16, 1, 52, "17.3"), (7, 2, 6, "78.0"),
                                 (16, 2, 440, "28.1"), (10, 3, 18, "603.0"), (16, 3, 2016, "75.0")]:
        assert f"{bits_002(n, t, bits, True) / bits:.1f}" == messages, (n, t, bits_002(n, t, bits, True) / bits)


def on_the_air(n, t, w):
    """000, 002 and 003; nothing where 003 does not bear t bad columns."""
    return [
        together(n, rounds_000(n, t), bits_000(n, t, w, False)),
        together(n, t + 1, bits_002(n, t, 8 * w, False)),
        together(n, ROUNDS_003, bits_003(n, t, w, False)) if n >= 5 * t + 1 else None,
    ]


def point_to_point(n, t, w):
    """The coded exchange, whole vectors, 000, 002 and 003 as the documents count: every receiver, no headers."""
    pairs = n * (n - 1)
    return [
        pairs * w * (1 + 4 * t),
        pairs * w * (1 + 2 * n),
        together(n, 0, bits_000(n, t, w, True)),
        together(n, 0, bits_002(n, t, 8 * w, True)),
        together(n, 0, bits_003(n, t, w, True)) if n >= 5 * t + 1 else None,
    ]


def shown(count):
    if count is None:
        return "-"
    if count < 10**9:
        return f"{count:,}"
    power = len(str(count)) - 1
    return f"{count / 10**power:.1f} · 10^{power}"


SETTINGS = [(4, 1, 4), (8, 1, 4), (8, 2, 4), (16, 1, 4), (16, 3, 4), (16, 5, 4), (31, 1, 4), (31, 10, 4), (4, 1, 8), (31, 1, 8), (31, 2, 8), (31, 6, 8),
            (31, 10, 8), (32, 10, 8)]
COUNTED = [(4, 1, 4), (16, 3, 8), (31, 1, 8), (31, 6, 8), (31, 10, 8)]

PROMISES = [
    ("coded: 004, section 3", "3", "3t+1", "gradecast of all values", "one frame a round heard by all; 2t check values, where 004 allows 2t+1"),
    ("whole vectors: 001, section 2, Table 1", "3", "3t+1", "gradecast of all values", "each column a dealer, steps 2 and 3 of all in one frame"),
    ("001, section 3", "expected O(log n)", "above 4t", "agreement on one bit, with probability 1",
     "no figure: it parts n columns into committees of (7/ε²)·log n, ε below 1/4, which are more than 32 columns"),
    ("000, sections V and VII", "t+7, one more where n is above 3t+1", "3t+1", "agreement on all values",
     "the constants of the one-bit consensus are 1: nt bits, and t+1 rounds, the least there can be (section I)"),
    ("002, sections 4 and 5, (27) and (28)", "t+1", "3t+1", "agreement on all values", "in each round the code that sends least, with symbols as small as (28) lets them be"),
    ("003, sections IV and V", "7, expected", "5t+1", "agreement on all values, with probability 1, without a common clock",
     "the constants of the one-bit consensus are 1: n² bits, and one round; the common coin that it supposes costs nothing"),
]


def table(headings, rows):
    yield "| " + " | ".join(headings) + " |"
    yield "|" + "---|" * len(headings)
    for row in rows:
        yield "| " + " | ".join(row) + " |"


def tables():
    yield "Bytes on the air, all frames of all columns:"
    yield ""
    rows = [[f"{n}", f"{t}", f"{w}", shown(coded(n, t, w)), shown(plain(n, w)), f"{coded(n, t, w) / plain(n, w):.2f}", *map(shown, on_the_air(n, t, w))]
            for n, t, w in SETTINGS]
    yield from table(["n", "t", "w", "coded", "whole vectors", "coded / whole vectors", "000", "002", "003"], rows)
    yield ""
    yield "Bytes as the documents count them, each message once for every receiver, without headers:"
    yield ""
    rows = [[f"{n}", f"{t}", f"{w}", *map(shown, point_to_point(n, t, w))] for n, t, w in COUNTED]
    yield from table(["n", "t", "w", "coded", "whole vectors", "000", "002", "003"], rows)
    yield ""
    yield from table(["Exchange", "Rounds", "Columns needed", "What good columns end with", "Assumed for the figures"], PROMISES)


def by_columns():
    most, top = 32, 18000
    curves = []
    for w, filled in [(8, True), (4, False)]:
        curves.append(Curve(f"whole vectors, w = {w}", [(n, plain(n, w)) for n in range(1, most + 1)], "none", "square", filled))
        curves.append(Curve(f"coded, greatest t, w = {w}", [(n, coded(n, most_bad(n), w)) for n in range(1, most + 1)], "6 3", "circle", filled))
        curves.append(Curve(f"coded, t = 1, w = {w}", [(n, coded(n, 1, w)) for n in range(4, most + 1)], "2 3", "triangle", filled))
    panel = Panel(80, 36, 440, 360, (0, most), (0, top))
    ticks = range(4, most + 1, 4)
    parts = [panel.axes("columns", "bytes", ticks, range(0, top + 1, 3000)), panel.curves(curves, ticks)]
    return svg(720, 440, "Bytes on the air for one exchange", parts)


def by_document():
    n, w = 31, 8
    every_t = range(1, most_bad(n) + 1)
    of_000, of_002, of_003 = zip(*(on_the_air(n, t, w) for t in every_t))
    curves = [
        Curve("coded: 3 rounds", [(t, coded(n, t, w)) for t in every_t], "none", "circle", True),
        Curve("whole vectors (001): 3 rounds", [(t, plain(n, w)) for t in every_t], "6 3", "square", True),
        Curve("000: t+7 rounds, agreement", list(zip(every_t, of_000)), "2 3", "triangle", False),
        Curve("003: 7 rounds, agreement", [(t, count) for t, count in zip(every_t, of_003) if count], "8 3 2 3", "diamond", False),
        Curve("002: t+1 rounds, agreement", [(t, count) for t, count in zip(every_t, of_002) if count < 10**7], "4 2", "square", False),
    ]
    counts = decades(100, 10**7)
    panel = Panel(110, 36, 440, 360, (0, most_bad(n)), (counts[0], counts[-1]), True)
    parts = [panel.axes("bad columns borne", "bytes, logarithmic", every_t, counts, "{:,.0f}".format), panel.curves(curves, every_t)]
    return svg(780, 440, f"Bytes on the air for one exchange of {n} columns, w = {w}, by source document", parts)


check_002()
if len(sys.argv) > 1:
    write(f"{sys.argv[1]}/bytes_on_the_air.svg", by_columns())
    write(f"{sys.argv[1]}/bytes_by_document.svg", by_document())
else:
    print("\n".join(tables()))
