#!/usr/bin/env python3
"""How many lookups find their key where sizes differ: in maps of objects that are bounded by weights, and in a model of S3-FIFO bounded by bytes.

50,000 keys have sizes from 64 bytes to 64 KB, whose logarithms are spread evenly. Keys are drawn by Zipf's law. The bound is a part of all bytes. The
index has room for twice as many entries as that part of the keys, or for all keys. A key that is absent is put. The first tenth of the lookups is left
out. Each cell has the hits in percent, and in percent of the bytes that were asked for.

usage: CEFRODIL_LIB=LIB bench/mixed_sizes.py [LOOKUPS]     LIB: the folder of libcefrodil.a; LOOKUPS: 1,000,000 unless it says otherwise

It takes three minutes. It needs cargo and g++ and, of Debian, the server's crates: see server/README.md.
"""
import itertools
import os
import random
import sys
import tempfile

from map_hits import built
from policies import S3Fifo
from traces import hits_of_program

KEYS, SKEWS, PARTS, SHARDS = 50_000, (0.7, 0.99, 1.2), (0.01, 0.1), (1, 16)


def size(key):
    """The programs read it there, too."""
    return key % (1 << 17)


def all_keys():
    """Each number with a size behind it."""
    drawn = random.Random(1)
    return [number << 17 | int(64 * 1024 ** drawn.random()) for number in range(KEYS)]


def cell(keys, hits):
    counted = list(zip(keys, hits))[len(keys) // 10:]
    number = 100 * sum(hit for _, hit in counted) / len(counted)
    part = 100 * sum(size(key) * hit for key, hit in counted) / sum(size(key) for key, _ in counted)
    return f'{number:.1f}, {part:.1f}'


def show(programs, lookups):
    columns = list(itertools.product(programs, SHARDS))
    print('|skew|bound|room|' + '|'.join(f'{name}, {shards} shard{"s" * (shards > 1)}' for name, shards in columns) + '|S3-FIFO|')
    print('|---' * (4 + len(columns)) + '|')
    known = all_keys()
    for skew, part in itertools.product(SKEWS, PARTS):
        keys = random.Random(2).choices(known, [1 / n ** skew for n in range(1, KEYS + 1)], k=lookups)
        bound = int(part * sum(map(size, known)))
        model = S3Fifo(bound, size)
        due = cell(keys, [model.look_up(key) for key in keys])
        for room in (int(2 * part * KEYS), KEYS):
            cells = [cell(keys, hits_of_program([programs[name], str(room), 'sizes', str(shards), str(bound)], keys)) for name, shards in columns]
            print(f'|{skew}|{part:.0%}|{room}|' + '|'.join([*cells, due]) + '|', flush=True)


def main(arguments):
    if len(arguments) > 1 or 'CEFRODIL_LIB' not in os.environ or (arguments and not arguments[0].isdigit()):
        sys.exit(__doc__)
    with tempfile.TemporaryDirectory() as folder:
        show(built(folder), int(arguments[0]) if arguments else 1_000_000)


if __name__ == '__main__':
    main(sys.argv[1:])
