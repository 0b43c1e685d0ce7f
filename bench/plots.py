#!/usr/bin/env python3
"""Draws the plots of the documents from results of bench/contests.py, as SVG: for light and dark pages, and readable in grey.

usage: bench/plots.py FILE FOLDER     FILE: the lines of JSON of bench/contests.py; FOLDER: gets the plots for which there are results
"""
import math
import os
import re
import sys
from typing import NamedTuple

import contests

WIDTH, HEIGHT, LEFT, RIGHT, TOP, BOTTOM = 640, 360, 58, 132, 34, 44
# Each contestant has its own dashes and mark, so no plot needs colours. Cefrodil's line is thick.
DASHES = ('', '6 3', '2 3', '8 3 2 3', '12 4', '1 4', '4 2', '10 2 2 2 2 2')
MARKS = ('circle', 'square', 'diamond', 'up', 'down', 'cross', 'plus', 'bar', 'ring', 'frame')
# What the figures of a plot are divided by.
SHOWN_IN = {'lookups_s': 1e6, 'writes_s': 1e6, 'calls_s': 1e6}
STYLE = """\
<style>
svg{background:#fff;color:#111}
@media(prefers-color-scheme:dark){svg{background:#0d1117;color:#e6edf3}}
text{fill:currentColor;font:11px Helvetica,Arial,sans-serif}
.title{font-weight:bold;font-size:13px}
.grid{stroke:currentColor;stroke-opacity:.15}
.axis{stroke:currentColor;stroke-opacity:.6}
.line{fill:none;stroke:currentColor;stroke-width:1.2}
.ours{stroke-width:3}
.mark{fill:currentColor;stroke:currentColor}
.middle{text-anchor:middle}
.end{text-anchor:end}
</style>
"""


class Plot(NamedTuple):
    name: str
    title: str
    across: str
    up: str
    figure: str
    # What the rows are, from left to right: the place across, and the row.
    rows: tuple = ()
    # Whether the axis across, or the one up, is logarithmic.
    is_wide: bool = False
    is_tall: bool = False
    # The lines, where they aren't contestants: the label and the rows of each.
    groups: tuple = ()
    # What is written at places across instead of their numbers.
    places: tuple = ()
    # The row whose median is written into `across`.
    noted: tuple = ()


class Scale:
    """Where numbers are on an axis, evenly or by their logarithms."""

    def __init__(self, numbers, first, last, by_logarithm):
        self.of = math.log10 if by_logarithm else float
        self.least = self.of(min(numbers)) if by_logarithm else 0.0
        self.most = self.of(max(numbers))
        self.first, self.last = first, last

    def at(self, number):
        share = (self.of(number) - self.least) / ((self.most - self.least) or 1)
        return round(self.first + share * (self.last - self.first), 1)


def round_steps(most):
    """Five or so round numbers from 0 up to this one."""
    step = 10 ** math.floor(math.log10(most / 4))
    step *= next(factor for factor in (1, 2, 5, 10) if most / (factor * step) <= 6)
    return [step * n for n in range(int(most / step) + 1)]


def round_decades(least, most):
    """Round numbers on a logarithmic axis, of which the first is at most the least number and the last at least the greatest."""
    for factors in (1, 2, 5), (1, 3), (1,):
        first, last = math.floor(math.log10(least)), math.ceil(math.log10(most))
        numbers = [factor * 10 ** power for power in range(first, last + 1) for factor in factors]
        start = max(number for number in numbers if number <= least)
        end = min(number for number in numbers if number >= most)
        numbers = [number for number in numbers if start <= number <= end]
        if len(numbers) <= 8:
            break
    return numbers


def mark(kind, x, y):
    shapes = {'circle': '<circle class="mark" r="3"/>', 'square': '<path class="mark" d="M-3 -3H3V3H-3Z"/>', 'diamond': '<path class="mark" d="M-4 0L0 -4L4 0L0 4Z"/>',
              'up': '<path class="mark" d="M-4 3H4L0 -4Z"/>', 'down': '<path class="mark" d="M-4 -3H4L0 4Z"/>', 'cross': '<path class="line" d="M-3 -3L3 3M-3 3L3 -3"/>',
              'plus': '<path class="line" d="M-4 0H4M0 -4V4"/>', 'bar': '<path class="line" d="M0 -4V4"/>', 'ring': '<circle class="line" r="3.5"/>', 'frame': '<path class="line" d="M-3 -3H3V3H-3Z"/>'}
    return f'<g transform="translate({x} {y})">{shapes[kind]}</g>'


def apart(places, room, lowest):
    """The places of labels, moved so that none is nearer to the next than this, and none is lower than that."""
    moved = {}
    last = -math.inf
    for name, place in sorted(places.items(), key=lambda pair: pair[1]):
        last = max(place, last + room)
        moved[name] = last
    for number, name in enumerate(reversed(moved)):
        moved[name] = min(moved[name], lowest - room * number)
    return moved


def short(number):
    for size, unit in ((1_000_000, 'M'), (1000, 'k')):
        if number >= size:
            return f'{number / size:.3g}{unit}'
    return f'{number:g}' if number == 0 or number >= 0.0001 else f'{number:.9f}'.rstrip('0')


def label_of(name):
    label = 'Cefrodil in Rattle' if name == 'cefrodil' else contests.SHOWN.get(name, name).strip('`')
    return label.replace('<', '&lt;').replace('>', '&gt;')


def axes(plot, points):
    """The scales across and up, and the drawing of both axes with their numbers."""
    numbers = [y for _, y in points]
    steps = round_decades(min(numbers), max(numbers)) if plot.is_tall else round_steps(max(numbers))
    across = Scale([x for x, _ in points], LEFT, WIDTH - RIGHT, plot.is_wide)
    up = Scale(steps if plot.is_tall else numbers, HEIGHT - BOTTOM, TOP, plot.is_tall)
    made = []
    for number in steps:
        y = up.at(number)
        made.append(f'<path class="grid" d="M{LEFT} {y}H{WIDTH - RIGHT}"/><text class="end" x="{LEFT - 6}" y="{y + 4}">{short(number)}</text>')
    for number in sorted({x for x, _ in points}):
        x, text = across.at(number), dict(plot.places).get(number, short(number))
        made.append(f'<path class="axis" d="M{x} {HEIGHT - BOTTOM}v4"/><text class="middle" x="{x}" y="{HEIGHT - BOTTOM + 16}">{text}</text>')
    made.append(f'<path class="axis" d="M{LEFT} {HEIGHT - BOTTOM}H{WIDTH - RIGHT}"/>')
    made.append(f'<text class="middle" x="{(LEFT + WIDTH - RIGHT) / 2}" y="{HEIGHT - 8}">{plot.across}</text>')
    made.append(f'<text class="middle" transform="translate(14 {(TOP + HEIGHT - BOTTOM) / 2}) rotate(-90)">{plot.up}</text>')
    return across, up, made


def draw(plot, lines):
    """The plot of these lines: by contestant, the place across and the figure of each point."""
    across, up, drawn_axes = axes(plot, [point for line in lines.values() for point in line])
    made = [f'<svg xmlns="http://www.w3.org/2000/svg" width="{WIDTH}" height="{HEIGHT}" viewBox="0 0 {WIDTH} {HEIGHT}" role="img">',
            f'<title>{plot.title}</title>\n{STYLE}<text class="title" x="{LEFT}" y="18">{plot.title}</text>', *drawn_axes]
    ends = apart({name: up.at(line[-1][1]) for name, line in lines.items()}, 13, HEIGHT - BOTTOM)
    for number, (name, line) in enumerate(lines.items()):
        places = [(across.at(x), up.at(y)) for x, y in line]
        dashes = DASHES[number % len(DASHES)]
        css = 'line ours' if 'cefrodil' in label_of(name).lower() else 'line'
        made.append(f'<path class="{css}" stroke-dasharray="{dashes or "none"}" d="M{"L".join(f"{x} {y}" for x, y in places)}"/>')
        made += [mark(MARKS[number % len(MARKS)], x, y) for x, y in places]
        x, label = places[-1][0], label_of(name)
        made.append(f'<path class="grid" d="M{x + 5} {places[-1][1]}L{x + 12} {ends[name]}"/><text x="{x + 14}" y="{ends[name] + 4}">{label}</text>')
    return '\n'.join([*made, '</svg>', ''])


def points_of(plot):
    """The line of each point, its place across, its row, and the contestant."""
    for label, rows in plot.groups or ((None, plot.rows),):
        for place, row in rows:
            for name in row.names:
                yield label or name, place, row, name


def lines_of(plot, told):
    """The points of each line: the medians of the rounds. A logarithmic axis has no zeros."""
    lines = {}
    for line, place, row, name in points_of(plot):
        number = contests.quartiles(contests.values(told, row, name))[1] / SHOWN_IN.get(plot.figure, 1)
        if number > 0 or not plot.is_tall:
            lines.setdefault(line, []).append((place, number))
    return lines


def with_note(plot, told):
    """The plot, with the median of all contestants where its text has a place for it."""
    if not plot.noted:
        return plot
    numbers = [number for name in plot.noted.names for number in contests.values(told, plot.noted, name)]
    return plot._replace(across=plot.across.format(contests.quartiles(numbers)[1]))


def busy():
    rows = contests.BENCHES['shares']
    shares = tuple(1 / every for every in contests.TURNS_EVERY)
    groups = tuple((f'{keys:,} keys', tuple(zip(shares, rows[n * len(shares):]))) for n, keys in enumerate(contests.TURNS_KEYS))
    places = tuple((share, f'1/{every}') for share, every in zip(shares, contests.TURNS_EVERY))
    return Plot('busy', 'Busy lookups by four threads that write by turns', 'share of calls that write', '% of lookups', 'busy_percent',
                is_wide=True, is_tall=True, groups=groups, places=places)


def percentiles(bench, name, title, up):
    """The plot of a bench whose rows are percentiles of times. The last row is a measurement of nothing."""
    *rows, empty = contests.BENCHES[bench]
    shares = tuple(contests.PERCENTILES.values())
    # The share of lookups that take longer shrinks by tens.
    rest = tuple(round(1 / (1 - share)) for share in shares)
    return Plot(name, title, 'percentile (an empty measurement takes {:.0f} ns)', up, 'ns', tuple(zip(rest, rows)), True, True,
                places=tuple((place, f'{100 * share:g}') for place, share in zip(rest, shares)), noted=empty)


def latency():
    return percentiles('latencies', 'latency', 'Three readers beside a thread that writes all the time (100,000 keys)', 'ns per lookup')


def puts():
    return percentiles('puts', 'puts', 'Puts of new keys into a full cache beside three readers (100,000 keys)', 'ns per put')


def used():
    """What calls cost over the share of slots in use: nanoseconds of each."""
    rows = contests.BENCHES['used']
    groups = tuple((name, tuple((percent, rows[3 * n + place]) for n, percent in enumerate(contests.USED)))
                   for place, name in enumerate(('hit', 'overwrite', 'evict')))
    return Plot('used', 'Calls in a table of 65,536 slots, by one thread', 'slots in use, %', 'ns per call', 'ns_each', groups=groups)


def map_sizes():
    """Hits in maps by four threads, over the number of keys."""
    rows = [row for bench in ('maps', 'millions') for row in contests.BENCHES[bench]
            if re.fullmatch(r'(hit, )?[\d,]+ keys, 4 threads', row.label)]
    across = tuple((int(re.search(r'[\d,]+ keys', row.label)[0][:-5].replace(',', '')), row._replace(names=contests.LARGE_MAPS)) for row in rows)
    return Plot('map_sizes', 'Hits in a map of a program\'s own types, by four threads', 'keys', 'M lookups/s', 'calls_s', across, True)


def plots():
    benches = contests.BENCHES
    return (
        Plot('threads', 'Lookups by threads that read (1,000 keys)', 'threads', 'M lookups/s', 'lookups_s', tuple(enumerate(benches['threads'][:4], 1))),
        Plot('beside', 'Lookups beside a thread that writes all the time (100,000 keys)', 'threads that read', 'M lookups/s', 'lookups_s',
             tuple(enumerate(benches['threads'][4:7], 1))),
        Plot('writers', 'Writes by threads that write one call in ten (100,000 keys)', 'threads', 'M writes/s', 'writes_s',
             tuple(enumerate(benches['threads'][7:], 1))),
        Plot('sizes', 'A hit, by one thread', 'keys', 'ns', 'ns_lookup', tuple(zip(contests.SIZES, benches['sizes'])), True),
        map_sizes(), busy(), latency(), puts(), used())


def draw_all(path, folder):
    told = contests.read(path)
    for plot in plots():
        if all(contests.is_measured(told, row) for _, _, row, _ in points_of(plot)):
            lines = lines_of(plot, told)
            if not lines:
                # A run that is too short finds no lookup busy.
                continue
            with open(os.path.join(folder, plot.name + '.svg'), 'w', encoding='utf-8') as file:
                file.write(draw(with_note(plot, told), lines))


if __name__ == '__main__':
    if len(sys.argv) != 3:
        sys.exit(__doc__)
    draw_all(sys.argv[1], sys.argv[2])
