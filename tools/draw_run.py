#!/usr/bin/env python3
"""Draws a run from what the program `calls` prints, as an SVG picture.

    calls < script | tools/draw_run.py --forks 2-5 --title "chromosome II" > run.svg

The script has a `clock` and a `state` after its opening and after each step; examples/run.c writes such scripts. Each
printed state is one point of the picture, at the time that the clock before it has. Without any `clock` the points
stand one step apart. Above: the number of forks and the number of lit pairs. Below: which positions (the first value
of each lit pair) are lit, from the step that lit them to the one that put them out.

--forks names the processes to count by their sum numbers (docs/USING.md says how sums are numbered), as 2,4-6; all
processes if it is not given. --channel draws below only the pairs of one channel, as name:0 or name:0,number:5.

Needs python3 alone (Debian package python3).
"""

import argparse
import itertools
import sys

# A text has fewer sums than tokens.
SUMS = 4096

# The state's layout, docs/LAYOUT.md.
STATE = 5122
PROCESSES = 256
PROCESS = 10
FIRST_PROCESS = 2
FIRST_PAIR = FIRST_PROCESS + PROCESSES * PROCESS
PAIR = 10
ITEMS = 3
CHANNEL = 1 + 2 * ITEMS
FIRST_VALUE = CHANNEL + 1
ANSWER = 6
CLOCK = 2

# More characters than any line of `calls` has: a state's numbers with their signs and blanks.
LONGEST = 22 * STATE

# Ticks of a unit of the model's time.
UNIT = 10000

# The picture, in pixels.
WIDTH = 900
LEFT = 70
RIGHT = 20
TOP = 50
CURVES = 240
GAP = 60
MAP = 300
BOTTOM = 50
FORKS = "#b03a2e"
LIT = "#1f618d"
AXIS = "#555555"


def sum_numbers(words):
    """The set of sum numbers that a list like 2,4-6 names."""
    numbers = set()
    for word in words.split(","):
        first, _, last = word.partition("-")
        if int(last or first) >= SUMS:
            raise argparse.ArgumentTypeError(f"sum numbers are below {SUMS}")
        numbers.update(range(int(first), int(last or first) + 1))
    return numbers


def channel(words):
    """The item count, kinds and numbers of a channel given as name:0 or name:0,number:5, as a state has them."""
    items = []
    for word in words.split(","):
        kind, _, number = word.partition(":")
        if kind not in ("number", "name"):
            raise argparse.ArgumentTypeError("an item of a channel is name:N or number:N")
        items += [1 if kind == "name" else 0, int(number)]
    if len(items) > 2 * ITEMS:
        raise argparse.ArgumentTypeError(f"a channel has at most {ITEMS} items")
    return (len(items) // 2, *items, *[0] * (2 * ITEMS - len(items)))


def whole_numbers(line):
    """The numbers of a line, of 64 bits with or without a sign; none if it has anything else."""
    try:
        numbers = [int(word) for word in line.split()]
    except ValueError:
        return []
    return numbers if all(-(2**63) <= number < 2**64 for number in numbers) else []


def lines_of(file):
    """Its lines, none longer than a line of `calls`."""
    for place in itertools.count(1):
        line = file.readline(LONGEST + 1)
        if not line:
            return
        if len(line) > LONGEST:
            sys.exit(f"line {place} is longer than any line of `calls`")
        yield line


def is_state(numbers):
    return len(numbers) == STATE and all(0 <= count <= PROCESSES for count in numbers[:FIRST_PROCESS])


def states(lines):
    """The states that were printed: each one's sum numbers, its pairs, and the ticks of the last clock before it, if any."""
    time = None
    for place, line in enumerate(lines, 1):
        if line.startswith("  "):
            continue
        if line.startswith("bad,"):
            sys.exit(f"the script has a line of another form: {line.strip()}")
        numbers = whole_numbers(line)
        if len(numbers) == ANSWER:
            if numbers[0] != 0:
                sys.stderr.write(f"line {place}: refused, {numbers[0]}\n")
        elif len(numbers) == CLOCK:
            time = numbers[0]
        elif is_state(numbers):
            ends = FIRST_PROCESS + PROCESS * numbers[0], FIRST_PAIR + PAIR * numbers[1]
            sums = numbers[FIRST_PROCESS : ends[0] : PROCESS]
            pairs = [tuple(numbers[at : at + PAIR]) for at in range(FIRST_PAIR, ends[1], PAIR)]
            yield sums, pairs, time
        else:
            sys.exit(f"line {place} is no line of `calls`")


def along(runs):
    """Where each point stands, how many of that are a unit, and what it is: the ticks of its clock, or its step."""
    times = [time for _, _, time in runs]
    if None in times:
        return range(len(runs)), 1, "steps"
    if any(later < earlier for earlier, later in zip(times, times[1:])):
        sys.exit("the clock goes back: one run is drawn, without a return or a second opening")
    return times, UNIT, "time"


def lit_spans(runs, wanted):
    """For each position, the spans of points in which it is lit: (position, first, last)."""
    spans, since = [], {}
    for point, (_, pairs, _) in enumerate(runs):
        lit = {pair[FIRST_VALUE] for pair in pairs if wanted is None or pair[:CHANNEL] == wanted}
        for position in [position for position in since if position not in lit]:
            spans.append((position, since.pop(position), point))
        for position in lit:
            since.setdefault(position, point)
    spans.extend((position, first, len(runs) - 1) for position, first in since.items())
    return sorted(spans)


def ticks(low, high):
    """Some round numbers from low to high."""
    sizes = (size * 10**power for power in itertools.count() for size in (1, 2, 5))
    step = next(size for size in sizes if (high - low) / size <= 8)
    first = -(-low // step) * step
    return range(int(first), int(high) + 1, step)


class Panel:
    """A part of the picture with its own vertical scale, over the places of the points."""

    def __init__(self, top, height, low, high, places, unit):
        self.top, self.height, self.low, self.high = top, height, low, max(high, low + 1)
        self.places, self.unit, self.last = places, unit, max(places[-1], 1)

    def across(self, place):
        return LEFT + (WIDTH - LEFT - RIGHT) * place / self.last

    def x(self, point):
        return self.across(self.places[point])

    def y(self, value):
        return self.top + self.height * (self.high - value) / (self.high - self.low)

    def frame(self, label):
        yield (
            f'<rect x="{LEFT}" y="{self.top}" width="{WIDTH - LEFT - RIGHT}" height="{self.height}" '
            f'fill="none" stroke="{AXIS}"/>'
        )
        for value in ticks(self.low, self.high):
            yield text(LEFT - 8, self.y(value) + 4, value, "end")
            yield f'<path d="M{LEFT - 4} {self.y(value):.1f}h4" stroke="{AXIS}"/>'
        for place in ticks(0, self.last):
            yield text(self.across(place), self.top + self.height + 16, f"{place / self.unit:.10g}", "middle")
        middle = self.top + self.height / 2
        yield (
            f'<text x="18" y="{middle}" text-anchor="middle" transform="rotate(-90 18 {middle})" '
            f'fill="{AXIS}">{escaped(label)}</text>'
        )

    def curve(self, values, colour):
        """Steps: a value holds until the next point."""
        path = f"M{self.x(0):.1f} {self.y(values[0]):.1f}"
        for point, value in enumerate(values[1:], 1):
            path += f"H{self.x(point):.1f}V{self.y(value):.1f}"
        return f'<path d="{path}" fill="none" stroke="{colour}" stroke-width="1.5"/>'


def escaped(words):
    return str(words).replace("&", "&amp;").replace("<", "&lt;").replace(">", "&gt;")


def text(x, y, words, anchor, colour=AXIS):
    return f'<text x="{x:.1f}" y="{y:.1f}" text-anchor="{anchor}" fill="{colour}">{escaped(words)}</text>'


def picture(runs, options):
    forks = [sum(options.forks is None or number in options.forks for number in sums) for sums, _, _ in runs]
    lit = [len(pairs) for _, pairs, _ in runs]
    spans = lit_spans(runs, options.channel)
    places, unit, axis = along(runs)
    counted = "processes" if options.forks is None else "forks"
    height = TOP + CURVES + GAP + MAP + BOTTOM
    yield (
        f'<svg xmlns="http://www.w3.org/2000/svg" width="{WIDTH}" height="{height}" '
        f'viewBox="0 0 {WIDTH} {height}" font-family="sans-serif" font-size="12">'
    )
    yield f'<rect width="{WIDTH}" height="{height}" fill="white"/>'
    yield text(LEFT, 22, options.title, "start", "black")
    yield text(WIDTH - RIGHT - 120, 40, counted, "end", FORKS)
    yield text(WIDTH - RIGHT, 40, "lit pairs", "end", LIT)
    curves = Panel(TOP, CURVES, 0, max(forks + lit), places, unit)
    yield from curves.frame("how many")
    yield curves.curve(lit, LIT)
    yield curves.curve(forks, FORKS)
    positions = [position for position, _, _ in spans] or [0]
    below = Panel(TOP + CURVES + GAP, MAP, min(positions), max(positions) + 1, places, unit)
    yield from below.frame("lit positions")
    for position, first, last in spans:
        top, bottom = below.y(position + 1), below.y(position)
        yield (
            f'<rect x="{below.x(first):.1f}" y="{top:.1f}" width="{below.x(last) - below.x(first):.1f}" '
            f'height="{bottom - top:.1f}" fill="{LIT}"/>'
        )
    yield text(LEFT + (WIDTH - LEFT - RIGHT) / 2, height - 14, axis, "middle")
    yield "</svg>"


def main():
    parser = argparse.ArgumentParser(description="Draws a run from the output of `calls` as SVG.")
    parser.add_argument("--forks", type=sum_numbers, metavar="SUMS", help="sum numbers to count, as 2,4-6")
    parser.add_argument("--channel", type=channel, metavar="ITEMS", help="the channel to draw, as name:0 or name:0,number:5")
    parser.add_argument("--title", default="A run", help="the picture's title")
    options = parser.parse_args()
    if sys.stdin is None:
        sys.exit("standard input is closed")
    sys.stdin.reconfigure(errors="replace")
    runs = list(states(lines_of(sys.stdin)))
    if not runs:
        sys.exit("no state was printed: the script needs `state` lines")
    try:
        print("\n".join(picture(runs, options)), flush=True)
    except OSError as error:
        sys.exit(f"standard output: {error}")


if __name__ == "__main__":
    main()
