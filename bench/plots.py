#!/usr/bin/env python3
"""plots.py RUNS.csv > CURVES.svg: draws what `bench/solve.py --csv RUNS.csv` measured, a small picture for each family: seconds over the
size, both in powers of ten, a line for each solver, whose last point is hollow where it gave no verdict there.
"""

import csv
import html
import math
import sys
from collections import defaultdict

WIDTH, HEIGHT, EDGE, GAP = 150, 90, 34, 26
COLUMNS = 5
COLOURS = {"dqsolve": "#1565c0", "depqbf": "#c62828", "pedant": "#2e7d32", "hqs": "#6a1b9a", "dqbdd": "#ef6c00"}
LEAST, MOST = 0.01, 100.0  # seconds


def read_runs(path):
    """For each family and solver, (size, seconds, whether there was a verdict), by size."""
    runs = defaultdict(lambda: defaultdict(list))
    with open(path, newline="", encoding="utf-8") as file:
        for row in csv.DictReader(file):
            decided = row["verdict"] in ("TRUE", "FALSE")
            runs[row["family"]][row["solver"]].append((int(row["size"]), float(row["seconds"]), decided))
    return {family: {name: sorted(points) for name, points in solvers.items()} for family, solvers in runs.items()}


def share(value, least, most):
    """Where a value stands between two others, in powers of ten."""
    if most <= least:
        return 0.5
    value = min(max(value, least), most)
    return math.log(value / least) / math.log(most / least)


class Panel:
    """A family's picture, with its upper left corner at (x, y)."""

    def __init__(self, family, solvers, x, y):
        self.family, self.solvers, self.x, self.y = family, solvers, x, y
        sizes = [size for points in solvers.values() for size, _, _ in points]
        self.least, self.most = min(sizes), max(sizes)

    def place(self, size, seconds):
        across, up = share(size, self.least, self.most), share(seconds, LEAST, MOST)
        return self.x + WIDTH * across, self.y + HEIGHT * (1 - up)

    def lines(self):
        left, right, top, foot = self.x, self.x + WIDTH, self.y, self.y + HEIGHT
        yield f'<path d="M {left} {top} V {foot} H {right}" fill="none" stroke="#888"/>'
        yield f'<text x="{left}" y="{top - 5}" font-weight="bold">{html.escape(self.family)}</text>'
        yield f'<text x="{left}" y="{foot + 11}">{self.least}</text><text x="{right}" y="{foot + 11}" text-anchor="end">{self.most}</text>'
        for seconds in (LEAST, 1, MOST):
            y = self.place(self.least, seconds)[1]
            yield f'<text x="{left - 3}" y="{y + 3:.1f}" text-anchor="end">{seconds:g}</text>'
        for name, points in self.solvers.items():
            yield from self.curve(points, COLOURS.get(name, "#555"))

    def curve(self, points, colour):
        places = [self.place(size, seconds) for size, seconds, _ in points]
        path = " ".join(f"{x:.1f},{y:.1f}" for x, y in places)
        yield f'<polyline points="{path}" fill="none" stroke="{colour}"/>'
        for (x, y), (_, _, decided) in zip(places, points):
            yield f'<circle cx="{x:.1f}" cy="{y:.1f}" r="2" stroke="{colour}" fill="{colour if decided else "white"}"/>'


def drawing(runs):
    panels = [
        Panel(family, solvers, EDGE + (place % COLUMNS) * (WIDTH + EDGE + GAP), 40 + (place // COLUMNS) * (HEIGHT + 2 * GAP))
        for place, (family, solvers) in enumerate(runs.items())
    ]
    names = sorted({name for solvers in runs.values() for name in solvers}, key=lambda name: list(COLOURS).index(name) if name in COLOURS else 9)
    width, height = COLUMNS * (WIDTH + EDGE + GAP), 40 + -(-len(panels) // COLUMNS) * (HEIGHT + 2 * GAP)
    yield f'<svg xmlns="http://www.w3.org/2000/svg" viewBox="0 0 {width} {height}" font-family="sans-serif" font-size="9">'
    for place, name in enumerate(names):
        yield f'<text x="{EDGE + 90 * place}" y="14" font-size="12" fill="{COLOURS.get(name, "#555")}">{html.escape(name)}</text>'
    for panel in panels:
        yield from panel.lines()
    yield "</svg>"


def main(words):
    if len(words) != 1 or words == ["--help"]:
        print(__doc__.strip())
        return 0 if words == ["--help"] else 1
    print("\n".join(drawing(read_runs(words[0]))))
    return 0


if __name__ == "__main__":
    sys.exit(main(sys.argv[1:]))
