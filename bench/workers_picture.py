#!/usr/bin/env python3
"""workers_picture.py [CSV] > docs/workers.svg: the picture of what `bench/run workers` prints.

Reads its rows, of the latest file of results/ where none is named, and draws the most commits a second by the number of
workers, on two logarithmic axes: a row of panels for each think time and kind, a column for each type.
"""
import csv
import glob
import math
import os
import sys

NAMES = ("modulo", "counter", "account")
KINDS = ("undo", "intentions")
WORKERS = (1, 2, 4, 16)
# The think times that are drawn, and the powers of ten between which their commits a second are.
DRAWN = {1000: (2, 5), 100: (3, 6)}

# The programs that are drawn: their columns, what they are called, and how their lines look.
PROGRAMS = (
    ("colock most", "colock", "#0b5fa5", "", 5),
    ("operations most", "plain, locks of operations", "#d9730d", "6 3", 3.5),
    ("object most", "plain, one lock on the object", "#777777", "2 3", 3.5),
)

WIDTH, HEIGHT = 250, 150
LEFT, TOP, GAP_X, GAP_Y = 78, 66, 58, 46

LATEST = os.path.join(os.path.dirname(os.path.abspath(__file__)), "results", "*-workers.csv")


def rates_of(path):
    """The most commits a second of each program, by think time, kind, type and workers."""
    with open(path, encoding="ascii") as file:
        return {(int(row["microseconds"]), row["kind"], row["type"], int(row["workers"])): [int(row[column]) for column, *_ in PROGRAMS]
                for row in csv.DictReader(file)}


def text(x, y, words, size=11, anchor="middle", colour="#222222"):
    return (f'<text x="{x:.1f}" y="{y:.1f}" font-size="{size}" text-anchor="{anchor}" '
            f'fill="{colour}">{words}</text>')


def line(x1, y1, x2, y2, colour="#dddddd", width=1, dashes=""):
    return (f'<line x1="{x1:.1f}" y1="{y1:.1f}" x2="{x2:.1f}" y2="{y2:.1f}" stroke="{colour}" '
            f'stroke-width="{width}" stroke-dasharray="{dashes}"/>')


class Panel:
    """A panel whose upper left corner is at (x, y), between two powers of ten."""

    def __init__(self, x, y, powers):
        self.x, self.y, self.powers = x, y, powers

    def across(self, workers):
        return self.x + WIDTH * (0.06 + 0.88 * math.log(workers, max(WORKERS)))

    def down(self, rate):
        low, high = self.powers
        return self.y + HEIGHT * (high - math.log10(rate)) / (high - low)

    def frame(self, title):
        low, high = self.powers
        for power in range(low, high + 1):
            y = self.down(10 ** power)
            yield line(self.x, y, self.x + WIDTH, y)
            yield text(self.x - 6, y + 4, f"{10 ** power:,}", 10, "end")
        for workers in WORKERS:
            x = self.across(workers)
            yield line(x, self.y, x, self.y + HEIGHT, "#eeeeee")
            yield text(x, self.y + HEIGHT + 14, workers, 10)
        yield text(self.x + WIDTH / 2, self.y - 7, title, 12)

    def curve(self, rates, colour, dashes, radius):
        points = [(self.across(workers), self.down(rate)) for workers, rate in zip(WORKERS, rates)]
        path = " ".join(f"{x:.1f},{y:.1f}" for x, y in points)
        yield (f'<polyline points="{path}" fill="none" stroke="{colour}" stroke-width="2" '
               f'stroke-dasharray="{dashes}"/>')
        for x, y in points:
            yield f'<circle cx="{x:.1f}" cy="{y:.1f}" r="{radius}" fill="{colour}"/>'


def legend():
    for place, (_, what, colour, dashes, _) in enumerate(PROGRAMS):
        x = LEFT + place * 270
        yield line(x, 34, x + 36, 34, colour, 2, dashes)
        yield text(x + 44, 38, what, 12, "start")


def panels(rates):
    rows = [(think, kind) for think in DRAWN for kind in KINDS]
    for across, name in enumerate(NAMES):
        for down, (think, kind) in enumerate(rows):
            panel = Panel(LEFT + across * (WIDTH + GAP_X), TOP + down * (HEIGHT + GAP_Y), DRAWN[think])
            yield from panel.frame(f"{name}, {kind}, {think:,} microseconds")
            # what is drawn first lies below
            for place, (*_, colour, dashes, radius) in enumerate(PROGRAMS):
                most = [rates[think, kind, name, workers][place] for workers in WORKERS]
                yield from panel.curve(most, colour, dashes, radius)


def main():
    rates = rates_of(sys.argv[1] if len(sys.argv) > 1 else sorted(glob.glob(LATEST))[-1])
    width = LEFT + len(NAMES) * (WIDTH + GAP_X)
    height = TOP + len(DRAWN) * len(KINDS) * (HEIGHT + GAP_Y)
    print(f'<svg xmlns="http://www.w3.org/2000/svg" width="{width}" height="{height}" '
          f'viewBox="0 0 {width} {height}" font-family="sans-serif">')
    print(f'<rect width="{width}" height="{height}" fill="white"/>')
    print(text(LEFT, 18, "Commits a second, by workers", 14, "start"))
    for part in (*legend(), *panels(rates)):
        print(part)
    print("</svg>")


if __name__ == "__main__":
    main()
