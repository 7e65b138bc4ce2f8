#!/usr/bin/env python3
"""Draws the table of `matgravel timing`.

    matgravel timing models/chromosome.bc --runs 500 --channel chr > timing.csv
    tools/plot_timing.py timing.csv timing.png --speed 0.35 --measured curve.csv

Above: the mean time at which each position was lit, with a band of one standard deviation to both sides. Middle: the
share of runs that have lit a position by a time. Below: forks over time, which is how many positions were lit in a unit
of time, over the positions that one fork lights in a unit (--speed); without --speed, the positions alone.

--measured lays a measured curve over the mean: a table of position and time, with or without a head. The squared
distance between both is printed: over the measured positions within the table, the mean drawn straight from one
position to the next. A table named - is standard input.

The picture needs matplotlib (Debian package python3-matplotlib); the distance needs python3 alone.
"""

import argparse
import csv
import itertools
import math
import sys

# More characters than a line of a table has.
LONGEST = 1 << 20

STATISTICS = ["value", "runs", "lit", "mean", "sd", "q1", "median", "q3"]
GRID = "by_"


def lines_of(file):
    """Its lines, none longer than a table's."""
    while line := file.readline(LONGEST):
        if len(line) == LONGEST:
            raise ValueError("a line is longer than any of a table")
        yield line


def rows_of(name):
    """The rows of a table; of standard input for -."""
    if name == "-" and sys.stdin is None:
        raise ValueError("it is closed")
    with sys.stdin if name == "-" else open(name, newline="") as file:
        yield from csv.reader(lines_of(file))


def number(word):
    """A number that is neither infinite nor none."""
    value = float(word)
    if not math.isfinite(value):
        raise ValueError(f"{word} is no number")
    return value


class Timing:
    """The table's columns: positions ascend, and shares has a row for each of them."""

    def __init__(self, rows):
        head = next(rows, [])
        if head[: len(STATISTICS)] != STATISTICS or not all(name.startswith(GRID) for name in head[len(STATISTICS) :]):
            raise ValueError("this is no table of `matgravel timing`")
        self.times = [number(name[len(GRID) :]) for name in head[len(STATISTICS) :]]
        table = sorted((int(row[0].split()[0]), row) for row in rows)
        if not table:
            raise ValueError("the table has no rows: nothing was lit")
        if any(len(row) != len(head) for _, row in table):
            raise ValueError("a row has more or fewer fields than the head")
        self.positions = [position for position, _ in table]
        self.means = [number(row[3]) for _, row in table]
        self.deviations = [number(row[4] or 0) for _, row in table]
        self.shares = [[number(share) for share in row[len(STATISTICS) :]] for _, row in table]

    def mean_at(self, position):
        """The mean at a position between those of the table; None outside of them."""
        points = list(zip(self.positions, self.means))
        for (left, first), (right, last) in itertools.pairwise(points + points[-1:]):
            if left <= position <= right:
                return first if left == right else first + (last - first) * (position - left) / (right - left)
        return None

    def lit_in_a_unit(self):
        """Between two times of the grid each: their middle, and how many positions were lit in a unit of time."""
        counts = [0.0] + [sum(column) for column in zip(*self.shares)]
        times = [0.0] + self.times
        spans = zip(itertools.pairwise(times), itertools.pairwise(counts))
        return [((start + end) / 2, (after - before) / (end - start)) for (start, end), (before, after) in spans]


def measured_points(rows):
    """Positions and times; the first row may be a head."""
    points = []
    for place, row in enumerate(rows, 1):
        try:
            points.append((number(row[0]), number(row[1])))
        except (ValueError, IndexError):
            if place > 1:
                raise ValueError(f"row {place} isn't a position and a time") from None
    return points


def squared_distance(timing, points):
    """The sum of the squared differences, and over how many positions."""
    pairs = [(timing.mean_at(position), time) for position, time in points]
    squares = [(mean - time) ** 2 for mean, time in pairs if mean is not None]
    return math.fsum(squares), len(squares)


def draw(timing, points, options):
    import matplotlib

    matplotlib.use("Agg")
    from matplotlib import pyplot

    figure, (above, middle, below) = pyplot.subplots(3, 1, figsize=(9, 11), layout="constrained")
    above.set_title(options.title)
    low = [mean - deviation for mean, deviation in zip(timing.means, timing.deviations)]
    high = [mean + deviation for mean, deviation in zip(timing.means, timing.deviations)]
    above.fill_between(timing.positions, low, high, alpha=0.3, linewidth=0, label="one standard deviation")
    above.plot(timing.positions, timing.means, label="mean")
    if points:
        above.plot(*zip(*points), ".", color="black", markersize=3, label="measured")
    above.invert_yaxis()
    above.set(xlabel="position", ylabel="time")
    above.legend()
    if timing.times:
        rows = list(zip(*timing.shares))
        mesh = middle.pcolormesh(timing.positions, timing.times, rows, vmin=0, vmax=1, shading="nearest")
        figure.colorbar(mesh, ax=middle, label="share of runs")
        rates = [(time, rate / (options.speed or 1)) for time, rate in timing.lit_in_a_unit()]
        below.step(*zip(*rates), where="mid")
    middle.set(xlabel="position", ylabel="time")
    below.set(xlabel="time", ylabel="forks" if options.speed else "positions in a unit of time")
    figure.savefig(options.picture, dpi=150)


def speed(word):
    value = number(word)
    if value <= 0:
        raise ValueError
    return value


def options_given():
    parser = argparse.ArgumentParser(description="Draws the table of `matgravel timing`.")
    parser.add_argument("timing", help="the table")
    parser.add_argument("picture", nargs="?", help="the picture to write, as .png, .svg or .pdf")
    parser.add_argument("--measured", help="a measured curve: a table of position and time")
    parser.add_argument("--speed", type=speed, help="positions that one fork lights in a unit of time")
    parser.add_argument("--title", default="Timing", help="the picture's title")
    options = parser.parse_args()
    if not options.picture and not options.measured:
        parser.error("name a picture to write, or a measured curve")
    return options


def print_distance(timing, points):
    total, count = squared_distance(timing, points)
    root = math.sqrt(total / count) if count else 0.0
    print(f"squared distance {total:.6g} over {count} positions, root of the mean square {root:.6g}", flush=True)


def main():
    options = options_given()
    name = options.timing
    try:
        timing = Timing(rows_of(name))
        points = []
        if options.measured:
            name = options.measured
            points = measured_points(rows_of(name))
            print_distance(timing, points)
        if options.picture:
            name = options.picture
            draw(timing, points, options)
    except ImportError:
        sys.exit("matplotlib isn't there: install python3-matplotlib")
    except (OSError, ValueError, IndexError, ArithmeticError, csv.Error) as error:
        sys.exit(f"{'standard input' if name == '-' else name}: {error}")


if __name__ == "__main__":
    main()
