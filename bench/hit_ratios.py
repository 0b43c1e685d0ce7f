#!/usr/bin/env python3
"""How many lookups find their key, in the cache and in exact models of LRU, FIFO and random replacement.

The lookups are those of `plain` and `scans` of bench/traces.py, a million of drawn keys. A key that is absent is put. The table has items for 1 %
or for 10 % of the keys. The first tenth of the lookups is left out, and so are those of keys that scans bring.

mcstep plays all calls. A model of its hand says which of them are puts, and every answer of mcstep is compared with it.

It prints a table of the hits in percent. Then it draws the plot docs/plots/hits.svg: the hits at skew 0.99 without scans, over the number of items.

usage: bench/hit_ratios.py [PROGRAM]     PROGRAM: the mcstep to ask; none: crates/mcstep/out/mcstep
"""
import itertools
import os
import random
import subprocess
import sys
from collections import deque

import plots
import traces
from policies import Clock, Lru
from servers import TOP

SIZES = (500, 1000, 2000, 5000, 10_000, 20_000, 50_000)
LOOKUPS = 1_000_000


class Fifo:
    def __init__(self, items):
        self.items, self.kept, self.order = items, set(), deque()

    def look_up(self, key):
        found = key in self.kept
        if not found:
            if len(self.order) == self.items:
                self.kept.remove(self.order.popleft())
            self.kept.add(key)
            self.order.append(key)
        return found


class Random:
    def __init__(self, items):
        self.items, self.kept, self.slots, self.random = items, set(), [], random.Random(2)

    def look_up(self, key):
        found = key in self.kept
        if not found:
            self.kept.add(key)
            if len(self.slots) < self.items:
                self.slots.append(key)
            else:
                at = self.random.randrange(self.items)
                self.kept.remove(self.slots[at])
                self.slots[at] = key
        return found


class Cache(Clock):
    """CLOCK that writes the script that mcstep is to play, and the answers that are due."""

    def __init__(self, items):
        super().__init__(items)
        self.moment, self.script, self.answers = 0, [], []

    def look_up(self, key):
        self.script.append(f'get {key}')
        self.answers.append(f'{"found 1" if key in self else "absent"} at {self.moment}')
        return super().look_up(key)

    def put(self, key):
        evicted = super().put(key)
        self.moment += 1 if evicted is None else 2
        self.script.append(f'put {key} 1')
        self.answers.append(f'stored at {self.moment}' + (f' evicted {evicted}' if evicted is not None else ''))
        return evicted

    def check(self, program):
        """Fails unless mcstep answers so. What it says of moves is left out."""
        buckets = 1 << (self.items // 2).bit_length()
        options = ['--mix', 'fmix', '--depth', '5', '--buckets', str(buckets), '--items', str(self.items)]
        told = subprocess.run([program, *options], input='\n'.join(self.script) + '\n', capture_output=True, text=True)
        lines = [line.partition(' moves ') for line in told.stdout.splitlines()]
        answers = [head + tail.lstrip('0123456789') for head, _, tail in lines]
        if told.returncode != 0 or answers != self.answers:
            sys.exit('hit_ratios.py: mcstep does not answer as the model of its hand does')


def ratios(program, make, skew, items):
    """The hits of each kind of replacement, of which those of the cache are compared with mcstep."""
    models = {'Cefrodil, CLOCK': Cache(items), 'LRU': Lru(items), 'FIFO': Fifo(items), 'random': Random(items)}
    keys = list(make(skew, items, LOOKUPS))
    found = {name: traces.of_model(model, keys) for name, model in models.items()}
    models['Cefrodil, CLOCK'].check(program)
    return found


def draw(program):
    lines = {}
    for items in SIZES:
        for name, found in ratios(program, traces.plain, 0.99, items).items():
            lines.setdefault(name, []).append((items, found))
    plot = plots.Plot('hits', f'Lookups that find their key, of {traces.KEYS:,} keys (Zipf, 0.99)', 'items', '% of lookups', '', is_wide=True)
    with open(os.path.join(TOP, 'docs/plots/hits.svg'), 'w', encoding='utf-8') as file:
        file.write(plots.draw(plot, lines))


def main(arguments):
    if len(arguments) > 1 or (arguments and arguments[0].startswith('-')):
        sys.exit(__doc__)
    program = arguments[0] if arguments else os.path.join(TOP, 'crates/mcstep/out/mcstep')
    if not os.access(program, os.X_OK):
        sys.exit(f'hit_ratios.py: there is no program {program}; to build it: (cd crates/mcstep && rt run < stdin)')
    print('|skew|items|scans|Cefrodil, CLOCK|LRU|FIFO|random|')
    print('|---|---|---|---|---|---|---|')
    for skew, items, make in itertools.product(traces.SKEWS, traces.SIZES, (traces.plain, traces.scans)):
        cells = '|'.join(f'{each:.1f}' for each in ratios(program, make, skew, items).values())
        print(f'|{skew}|{items}|{"yes" if make is traces.scans else "no"}|{cells}|', flush=True)
    draw(program)


if __name__ == '__main__':
    main(sys.argv[1:])
