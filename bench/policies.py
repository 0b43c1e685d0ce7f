#!/usr/bin/env python3
"""How many lookups find their key, in models of what a cache evicts. No figure of a model is one of the library.

The lookups are those of bench/traces.py. A key that is absent is put. It prints a table with a row for one table, and one for 16 shards, of which each
has a sixteenth of the items.

With LIB it builds bench/peers/ratio/ratio.c, which makes these lookups by calls of the library. The table has its hits by each policy beside
those of the model that this policy is to follow. If they are more than half a point apart, the status is 1.

usage: [LOOKUPS=N] bench/policies.py [LIB]     LOOKUPS: none: 200,000; LIB: the folder of libcefrodil.a, as c/build makes it; none: models alone

It takes a minute.
"""
import os
import subprocess
import sys
import tempfile
from collections import OrderedDict

from servers import TOP
from traces import cases, of_model, of_program

SHARDS = 16
# The policies of the library, as ratio.c names them, with the models that they follow, and how many points each may be away from its model.
FOLLOWED, NEAR = {'scan-resistant': 'new and proven', 'clock': 'CLOCK'}, 0.5


class Lru:
    def __init__(self, items):
        self.items, self.kept = items, OrderedDict()

    def look_up(self, key):
        found = key in self.kept
        if found:
            self.kept.move_to_end(key)
        else:
            if len(self.kept) == self.items:
                self.kept.popitem(last=False)
            self.kept[key] = True
        return found


class Clock:
    """A hand goes round the items. It clears the bits that it finds set, and the first item whose bit is clear gives way."""

    def __init__(self, items):
        self.items, self.at, self.holds, self.marks, self.hand = items, {}, [], [], 0
        self.free = []

    def __contains__(self, key):
        return key in self.at

    def look_up(self, key):
        found = key in self.at
        if found:
            self.marks[self.at[key]] = True
        else:
            self.put(key)
        return found

    def put(self, key):
        """Returns the key that was evicted, or nothing."""
        evicted = None
        if self.free:
            item = self.free.pop()
        elif len(self.holds) < self.items:
            item = len(self.holds)
            self.holds.append(None)
            self.marks.append(True)
        else:
            item = self.victim()
            evicted = self.holds[item]
            del self.at[evicted]
        self.at[key], self.holds[item], self.marks[item] = item, key, True
        return evicted

    def victim(self):
        while self.marks[self.hand]:
            self.marks[self.hand] = False
            self.hand = (self.hand + 1) % self.items
        item, self.hand = self.hand, (self.hand + 1) % self.items
        return item

    def take(self, key):
        item = self.at.pop(key)
        self.holds[item] = None
        self.free.append(item)


class S3Fifo:
    """A tenth of the items for new keys, and as many ghosts as items. If keys weigh, the items are a bound on their weight."""

    def __init__(self, items, weigh=lambda key: 1):
        self.items, self.weigh, self.uses = items, weigh, {}
        self.small, self.main, self.ghosts = Queue(weigh), Queue(weigh), Queue(weigh)

    def look_up(self, key):
        if key in self.uses:
            self.uses[key] = min(3, self.uses[key] + 1)
            return True
        while self.small.weight + self.main.weight + self.weigh(key) > self.items:
            self.evict()
        (self.main if self.ghosts.take(key) else self.small).append(key)
        self.uses[key] = 0
        return False

    def evict(self):
        from_small = self.small.weight >= max(1, self.items // 10) or not self.main.weight
        key = (self.small if from_small else self.main).pop_first()
        if self.uses[key] > 0:
            self.uses[key] = 0 if from_small else self.uses[key] - 1
            self.main.append(key)
            return
        del self.uses[key]
        if from_small:
            self.ghosts.append(key)
            while self.ghosts.weight > self.items:
                self.ghosts.pop_first()


class Queue:
    """Keys in their order, and what they weigh."""

    def __init__(self, weigh):
        self.weigh, self.keys, self.weight = weigh, OrderedDict(), 0

    def append(self, key):
        self.keys[key] = True
        self.weight += self.weigh(key)

    def take(self, key):
        """Whether it was there."""
        was_there = self.keys.pop(key, False)
        self.weight -= self.weigh(key) * was_there
        return was_there

    def pop_first(self):
        key = next(iter(self.keys))
        self.take(key)
        return key


class WTinyLfu:
    """A hundredth of the items for new keys, and four fifths of the others protected. Counts are halved after ten lookups an item."""

    def __init__(self, items):
        self.items, self.window_items = items, max(1, items // 100)
        self.protected_items = int((items - self.window_items) * .8)
        self.window, self.protected, self.probation = OrderedDict(), OrderedDict(), OrderedDict()
        self.counts, self.counted = {}, 0

    def count(self, key):
        self.counts[key] = min(15, self.counts.get(key, 0) + 1)
        self.counted += 1
        if self.counted >= 10 * self.items:
            self.counted //= 2
            self.counts = {key: count // 2 for key, count in self.counts.items() if count > 1}

    def look_up(self, key):
        self.count(key)
        for part in (self.window, self.protected):
            if key in part:
                part.move_to_end(key)
                return True
        if key in self.probation:
            self.protect(key)
            return True
        self.window[key] = True
        if len(self.window) > self.window_items:
            self.admit(self.window.popitem(last=False)[0])
        return False

    def protect(self, key):
        del self.probation[key]
        self.protected[key] = True
        if len(self.protected) > self.protected_items:
            self.probation[self.protected.popitem(last=False)[0]] = True

    def admit(self, key):
        if len(self.protected) + len(self.probation) >= self.items - self.window_items:
            part = self.probation or self.protected
            victim = next(iter(part))
            if self.counts.get(key, 0) <= self.counts.get(victim, 0):
                return
            del part[victim]
        self.probation[key] = True


class TwoTables:
    """A tenth of the items for new keys. A key that is found there moves. Half as many keys as items are known when they come back."""

    def __init__(self, items):
        small = max(1, items // 10)
        self.small, self.main, self.left, self.left_most = Clock(small), Clock(max(1, items - small)), OrderedDict(), items // 2
        self.is_full = False

    def look_up(self, key):
        if key in self.main:
            return self.main.look_up(key)
        found = key in self.small
        if found:
            self.small.take(key)
        if found or not self.is_full or self.left.pop(key, False):
            self.is_full = self.main.put(key) is not None or self.is_full
            return found
        evicted = self.small.put(key)
        if evicted is not None:
            self.left[evicted] = True
            if len(self.left) > self.left_most:
                self.left.popitem(last=False)
        return False


class NewAndProven:
    """An item is new, or proven. Each of both kinds has a hand.

    A put leaves the item's bit clear. The item is proven if its key is noted, and new otherwise. While at most nine in ten items are proven, the hand
    of the new ones proves each whose bit is set. The first whose bit is clear gives way, and its key is noted. If more are proven, the first of them
    whose bit is clear gives way. A hand clears the bits that it finds set. A note is 16 bits. There is a place for each item, and a note replaces
    what its place had.
    """

    def __init__(self, items):
        self.items, self.most_proven = items, items * 9 // 10
        self.at, self.holds = {}, []
        self.bits, self.is_proven, self.proven = [False] * items, [False] * items, 0
        # By whether their items are proven.
        self.hands = [0, 0]
        self.notes = [0] * items

    def look_up(self, key):
        found = key in self.at
        if found:
            self.bits[self.at[key]] = True
        else:
            self.put(key)
        return found

    def put(self, key):
        if len(self.holds) < self.items:
            item = len(self.holds)
            self.holds.append(key)
        else:
            item = self.victim()
            del self.at[self.holds[item]]
            self.holds[item] = key
        self.at[key], self.bits[item] = item, False
        place, note = self.note_of(key)
        if self.notes[place] == note:
            self.notes[place] = 0
            self.prove(item)

    def note_of(self, key):
        """Its place and the note, which is never 0."""
        mixed = (key * 0x9E3779B97F4A7C15 ^ (key >> 7) * 0xC2B2AE3D27D4EB4F) % 2 ** 64
        return mixed % 2 ** 32 * len(self.notes) >> 32, (mixed >> 32) % 2 ** 16 or 1

    def prove(self, item):
        self.is_proven[item] = True
        self.proven += 1

    def victim(self):
        item = self.new_victim()
        return self.proven_victim() if item is None else item

    def new_victim(self):
        """Nothing if too many items are proven."""
        while self.proven <= self.most_proven:
            item = self.next_of(False)
            if not self.bits[item]:
                place, note = self.note_of(self.holds[item])
                self.notes[place] = note
                return item
            self.bits[item] = False
            self.prove(item)
        return None

    def proven_victim(self):
        item = self.next_of(True)
        while self.bits[item]:
            self.bits[item] = False
            item = self.next_of(True)
        self.is_proven[item] = False
        self.proven -= 1
        return item

    def next_of(self, is_proven):
        """The next item that is proven, or new. Its hand passes it."""
        item = self.hands[is_proven]
        while self.is_proven[item] != is_proven:
            item = (item + 1) % self.items
        self.hands[is_proven] = (item + 1) % self.items
        return item


class Shards:
    def __init__(self, model, items, count):
        self.shards = [model(items // count) for _ in range(count)]

    def look_up(self, key):
        return self.shards[(key * 0xD6E8FEB86659FD93 >> 17) % len(self.shards)].look_up(key)


MODELS = {'CLOCK': Clock, 'LRU': Lru, 'S3-FIFO': S3Fifo, 'W-TinyLFU': WTinyLfu, 'two tables': TwoTables, 'new and proven': NewAndProven}


def built_of_c(library, folder):
    program = os.path.join(folder, 'ratio')
    options = ['-std=c11', '-O2', '-I', os.path.join(TOP, 'c/include'), '-o', program]
    subprocess.run(['cc', *options, os.path.join(TOP, 'bench/peers/ratio/ratio.c'), os.path.join(library, 'libcefrodil.a')], check=True)
    return program


def show(columns, lookups):
    """Prints the table. A column is a function of items, shards and keys. Returns the hits, row by row."""
    print('|lookups|skew|items|shards|' + '|'.join(columns) + '|')
    print('|---' * (4 + len(columns)) + '|')
    rows = []
    for (head, items, keys), shards in ((case, shards) for case in cases(lookups) for shards in (1, SHARDS)):
        rows.append([column(items, shards, keys) for column in columns.values()])
        print(f'{head}{shards}|' + '|'.join(f'{cell:.1f}' for cell in rows[-1]) + '|', flush=True)
    return rows


def modelled(name):
    """The column of a model."""
    return lambda items, shards, keys: of_model(Shards(MODELS[name], items, shards), keys)


def called(program, policy):
    """The column of the library."""
    return lambda items, shards, keys: of_program([program, str(items), str(shards), policy], keys)


def show_library(library, lookups):
    """The library beside the models that it is to follow."""
    with tempfile.TemporaryDirectory() as folder:
        program = built_of_c(library, folder)
        columns = {}
        for policy, model in FOLLOWED.items():
            columns.update({model: modelled(model), f'library, {policy}': called(program, policy)})
        rows = show(columns, lookups)
    far = sum(abs(model - found) > NEAR for row in rows for model, found in zip(row[::2], row[1::2]))
    if far > 0:
        sys.exit(f'policies.py: {far} cells of the library are more than {NEAR} away from their models')


def main(arguments):
    if len(arguments) > 1 or (arguments and not os.path.isfile(f'{arguments[0]}/libcefrodil.a')):
        sys.exit(__doc__)
    lookups = int(os.environ.get('LOOKUPS', '200000'))
    if arguments:
        show_library(arguments[0], lookups)
    else:
        show({name: modelled(name) for name in MODELS}, lookups)


if __name__ == '__main__':
    main(sys.argv[1:])
