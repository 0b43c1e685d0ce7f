#!/usr/bin/env python3
"""Runs contestants side by side, and prints tables of what they did.

Each round runs each workload by each contestant, in a new order, each time in a process of its own. A workload of one thread is pinned
to one core, and measured by the thread's processor time. A cell is the median of the rounds, in the unit of its row. `~` marks one whose
quartiles are further apart than a tenth of it. `-` is for a contestant that has no such call.

usage: bench/contests.py run BENCH,.. BUILT FILE    BUILT: a folder of bench/build, or of bench/maps.sh; FILE: gets a line of JSON for each run
       bench/contests.py table BENCH FILE           prints the table of what the file has

ROUNDS: none: 21    SECONDS_EACH: how long a run measures; none: 0.05    CORE: where one thread runs; none: the last that is allowed
"""
import json
import os
import random
import statistics
import subprocess
import sys
from typing import NamedTuple

SHOWN = {'door': 'Cefrodil from C', 'cefrodil': 'in Rattle', 'libcuckoo': 'libcuckoo', 'tbb': 'TBB', 'urcu': 'urcu', 'ck': '`ck_ht`',
         'dashmap': 'dashmap', 'locked': '`RwLock<HashMap>`', 'lru': '`Mutex<LruCache>`', 'twin': 'unproved twin'}
ALL = tuple(SHOWN)
# Those of the bench of maps: the language of the program, and the contestant's name there.
MAPS = {'rust_cefrodil': '`cefrodil-map`', 'rust_dashmap': 'dashmap', 'rust_locked': SHOWN['locked'], 'rust_lru': SHOWN['lru'],
        'cpp_cefrodil': '`cefrodil::map`', 'cpp_libcuckoo': 'libcuckoo', 'cpp_tbb': 'TBB'}
# Those of the bench of both kinds of maps.
KINDS = {'cpp_map': '`map`', 'cpp_objects': '`object_map`', 'rust_map': '`Map`', 'rust_objects': '`ObjectMap`', 'rust_lru': SHOWN['lru']}
# From C to 64 shards, in the bench of large maps.
FROM_C = {'c_shards': SHOWN['door']}
LARGE_MAPS = ('rust_cefrodil', 'rust_dashmap', 'cpp_cefrodil', 'cpp_libcuckoo', 'cpp_tbb')
# Those of the bench of full caches: the policies, and the LRU cache of the crate lru.
POLICIES = {'scan_resistant': 'scan-resistant', 'clock': 'CLOCK', 'full_lru': '`Mutex<LruCache>`'}
SHOWN.update(MAPS | POLICIES | KINDS | FROM_C)
WRITERS = ('door', 'cefrodil', 'libcuckoo', 'tbb', 'dashmap', 'locked', 'lru')
# From C all threads write to 64 shards, each until it has the turn.
IN_SHARDS = (('door', 'door_shards'),)
EVICTORS = ('door', 'cefrodil', 'lru', 'twin')
# Those that time each lookup.
TIMED = ('door', 'libcuckoo', 'tbb', 'urcu', 'ck', 'dashmap', 'locked', 'lru')
# Those that evict, of the same programs.
TIMED_EVICTORS = ('door', 'lru')
MANY = 32
LARGEST = 3_774_873
SIZES = (64, 1000, 10_000, 100_000, 1_000_000, LARGEST)
# Of a distribution of times: the figures, and the share of lookups that take no longer.
PERCENTILES = {'p50_ns': 0.5, 'p90_ns': 0.9, 'p99_ns': 0.99, 'p999_ns': 0.999, 'p9999_ns': 0.9999}
# Where threads write by turns: how many keys there are, and how many calls of a thread have one write.
TURNS_KEYS = (8, 64, 1000, 100_000)
TURNS_EVERY = (1000, 300, 100, 30, 10, 3, 2)
# Shares of slots in use, in percent.
USED = (51, 60, 70, 80, 85, 90, 93, 95, 97)
# Programs that have several contestants, or options of their own.
PROGRAMS = {'cefrodil': ('mcbench',), 'many': ('mcbench', '--many', str(MANY)), 'shards16': ('mcbench', '--shards', '16'),
            'shards64': ('mcbench', '--shards', '64'), 'door_many': ('door', '--many', str(MANY)), 'twin': ('contest', 'twin'),
            'scan_resistant': ('door_shards', '--shards', '16'), 'clock': ('door_shards', '--shards', '16', '--clock', '1'), 'full_lru': ('full_lru',),
            'dashmap': ('contest', 'dashmap'), 'locked': ('contest', 'locked'), 'lru': ('contest', 'lru'),
            'c_shards': ('door_shards',), 'cpp_map': ('maps_cpp', 'cefrodil'), 'rust_map': ('maps_rust', 'cefrodil'),
            **{name: ('maps_' + name.split('_')[0], name.split('_', 1)[1]) for name in (*MAPS, 'cpp_objects', 'rust_objects')}}
# The figures: their units, and how they are shown.
UNITS = {'ns_lookup': ', ns', 'lookups_s': ', M/s', 'writes_s': ', M/s', 'load_factor': '', 'bytes_key': '', 'ns_call': ', ns',
         'calls_s': ', M/s', 'hit_ratio': '', 'busy_percent': ', %', 'ns_each': ', ns', 'empty_ns': ', ns', **dict.fromkeys(PERCENTILES, ', ns')}
SHOW = {'ns_lookup': '{:.0f}'.format, 'load_factor': '{:.3f}'.format, 'bytes_key': '{:.0f}'.format,
        'lookups_s': lambda number: f'{number / 1e6:.1f}', 'writes_s': lambda number: f'{number / 1e6:.1f}',
        'ns_call': '{:.0f}'.format, 'calls_s': lambda number: f'{number / 1e6:.1f}', 'hit_ratio': '{:.3f}'.format,
        'busy_percent': '{:.2g}'.format, 'ns_each': '{:.0f}'.format, 'empty_ns': '{:.0f}'.format, **dict.fromkeys(PERCENTILES, '{:,.0f}'.format)}


class Row(NamedTuple):
    label: str
    figure: str
    options: str
    names: tuple = ALL
    # Programs that run for a contestant, where it isn't the one of its name.
    by: tuple = ()
    huge: bool = False

    def program(self, name):
        return dict(self.by).get(name, name)

    def title(self):
        return self.label + UNITS[self.figure]


def options(workload, keys, more=''):
    return f'--workload {workload} --keys {keys} --capacity {keys}{more}'


def lookups(workload, keys, huge=False, many=False):
    """The rows of one workload: key by key and, if asked, by calls for many."""
    label = {'half': 'half present'}.get(workload, workload)
    row = Row(f'{label}, {keys:,} keys', 'ns_lookup', options(workload, keys), huge=huge)
    batch = row._replace(label=f'{row.label}, {MANY} keys per call', names=('door', 'cefrodil'), by=(('door', 'door_many'), ('cefrodil', 'many')))
    return [row] + [batch] * many


def lookups_by(threads, keys):
    """The rows of readers alone: key by key, and by calls for many."""
    row = Row(f'hit by {threads} threads, {keys:,} keys', 'lookups_s', options('hit', keys, f' --readers {threads}'))
    return [row, row._replace(label=f'{row.label}, {MANY} keys per call', names=('door', 'cefrodil'), by=(('door', 'door_many'), ('cefrodil', 'many')))]


def writes(label, workload, keys, names):
    """The row of one writer alone."""
    return Row(f'{label}, {keys:,} keys', 'writes_s', options(workload, keys, ' --readers 0 --writers 1'), names)


def writes_in_batches(label, workload, keys, names):
    """The same, and a row of calls for many keys, which only the library for C has here."""
    row = writes(label, workload, keys, names)
    return [row, row._replace(label=f'{row.label}, {MANY} keys per call', names=('door',), by=(('door', 'door_many'),))]


def peers():
    alone, beside = ' --readers 0 --writers 1', options('mixed', 100_000, ' --readers 3 --writers 1')
    rows = [row for workload in ('hit', 'half', 'miss') for keys in (1000, 100_000) for row in lookups(workload, keys)]
    rows.append(Row('three readers, 64 keys', 'lookups_s', options('hit', 64, ' --readers 3')))
    rows.append(Row('three readers beside a writer, 100,000 keys: reads', 'lookups_s', beside))
    rows.append(Row('three readers beside a writer, 100,000 keys: writes', 'writes_s', beside))
    for label, workload, names in ('overwrite', 'mixed', ALL), ('fill', 'fill', ALL), ('evict', 'evict', EVICTORS):
        rows += [writes(label, workload, keys, names) for keys in (1000, 100_000)]
    rows.append(Row('load factor at the first refusal', 'load_factor', options('load', 100_000, alone), ('cefrodil', 'libcuckoo', 'twin')))
    rows.append(Row('bytes per key, 100,000 keys', 'bytes_key', options('fill', 100_000, alone)))
    return rows


def large(huge):
    rows = [row for workload in ('hit', 'half', 'miss') for row in lookups(workload, 1_000_000, huge, True) if workload == 'hit' or not huge]
    rows += lookups('hit', LARGEST, huge, True)
    if huge:
        return rows
    rows += [row for keys in (1_000_000, LARGEST) for threads in (3, 4) for row in lookups_by(threads, keys)]
    return rows + writes_in_batches('overwrite', 'mixed', 1_000_000, ALL) + writes_in_batches('evict', 'evict', 1_000_000, EVICTORS)


def turns():
    rows = []
    for every, threads in (10, 2), (10, 4), (2, 4):
        for keys in 1000, 100_000:
            run = options('mixed', keys, f' --readers 0 --writers {threads} --write-every {every}')
            calls = f'{threads} threads, {keys:,} keys, one write in {every}'
            rows.append(Row(f'{calls}: writes', 'writes_s', run, WRITERS, IN_SHARDS))
            rows.append(Row('lookups', 'lookups_s', run, WRITERS, IN_SHARDS))
            for many in 16, 64:
                by = (('cefrodil', f'shards{many}'),)
                rows.append(Row(f'writes, {many} shards', 'writes_s', run, ('cefrodil',), by))
            rows.append(Row('lookups, 64 shards', 'lookups_s', run, ('cefrodil',), by))
    return rows


def threads():
    """What the plots over threads show: lookups alone, lookups beside a writer, and several writers."""
    rows = [Row(f'hit by {n} threads', 'lookups_s', options('hit', 1000, f' --readers {n}')) for n in range(1, 5)]
    rows += [Row(f'{n} readers beside a writer', 'lookups_s', options('mixed', 100_000, f' --readers {n} --writers 1')) for n in range(1, 4)]
    run = options('mixed', 100_000, ' --readers 0 --write-every 10')
    return rows + [Row(f'{n} writers', 'writes_s', f'{run} --writers {n}', WRITERS, IN_SHARDS) for n in range(1, 5)]


def maps():
    """Maps of a program's own types. Keys are numbers and values have 32 bytes, unless the row says otherwise."""
    rows = []
    for keys, every in (1000, (1, 3, 4)), (100_000, (1, 2, 3, 4)):
        rows += [calls(f'hit, {keys:,} keys', options('hit', keys), n) for n in every]
    rows += [calls(f'miss, {keys:,} keys', options('miss', keys), 1) for keys in (1000, 100_000)]
    for label, more, every in ('8 bytes', ' --words 1', (1,)), ('56 bytes', ' --words 7', (1, 4)), ('strings', ' --letters 16', (1, 4)):
        rows += [calls(f'hit, 100,000 keys, {label}', options('hit', 100_000, more), n) for n in every]
    rows += [calls(f'hit, {keys:,} keys, quick hash', options('hit', keys, ' --quick 1'), 1) for keys in (1000, 100_000)]
    for keys, n in (1000, 4), (100_000, 1), (100_000, 4):
        rows.append(calls(f'one write in ten, {keys:,} keys', options('mixed', keys, ' --write-every 10'), n, '--readers 0 --writers'))
    return rows


def kinds():
    """Maps of values and maps of objects, beside an LRU cache behind a mutex."""
    rows = [calls('hit, 100,000 keys', options('hit', 100_000), n) for n in (1, 4)]
    rows += [calls('full cache of 100,000 keys', '--workload cache --keys 200000 --capacity 100000', n) for n in (1, 4)]
    rows.append(rows[-1]._replace(label='the same: hit ratio', figure='hit_ratio'))
    return [row._replace(names=tuple(KINDS)) for row in rows]


def millions():
    """Hits in maps of so many keys that most are in no cache of the processor."""
    rows = []
    for keys in (1_000_000, 4_000_000, 16_000_000):
        rows += [calls(f'{keys:,} keys', options('hit', keys), n)._replace(names=(*FROM_C, *LARGE_MAPS)) for n in (1, 4)]
        many = options('hit', keys, f' --many {MANY}')
        rows += [calls(f'{keys:,} keys, by {MANY}', many, n)._replace(names=(*FROM_C, 'rust_cefrodil', 'cpp_cefrodil')) for n in (1, 4)]
    return rows


def calls(label, run, threads, role='--readers'):
    """A row of the bench of maps: what a call of one thread takes, or how many calls several threads make."""
    by, figure = ('one thread', 'ns_call') if threads == 1 else (f'{threads} threads', 'calls_s')
    return Row(f'{label}, {by}', figure, f'{run} {role} {threads}', tuple(MAPS))


def full():
    """Full caches whose keys are drawn by Zipf's law. Each key that is missed is put."""
    rows = []
    for keys, capacity in (100_000, 1000), (100_000_000, 1_000_000):
        run = f'--workload cache --keys {keys} --capacity {capacity} --skew 99'
        for threads in 1, 4:
            row = calls(f'{capacity:,} items of {keys:,} keys', run, threads)._replace(names=tuple(POLICIES))
            rows += [row, row._replace(label=f'{row.label}: hit ratio', figure='hit_ratio')]
    return rows


def latencies():
    """How long the lookups of three readers take beside a writer, by percentiles. The last row is a measurement of nothing."""
    run = options('mixed', 100_000, ' --readers 3 --writers 1 --latencies 1')
    rows = [Row(f'{100 * share:g} % of the lookups take at most', figure, run, TIMED) for figure, share in PERCENTILES.items()]
    return rows + [Row('an empty measurement', 'empty_ns', run, TIMED)]


def puts():
    """How long the puts of new keys take in a full cache beside three readers, by percentiles."""
    run = options('mixed', 100_000, ' --readers 3 --writers 1 --latencies 2')
    rows = [Row(f'{100 * share:g} % of the puts take at most', figure, run, TIMED_EVICTORS) for figure, share in PERCENTILES.items()]
    return rows + [Row('an empty measurement', 'empty_ns', run, TIMED_EVICTORS)]


def used():
    """What calls cost over the greatest share of slots in use, in a table of 65,536 slots."""
    rows = []
    for percent in USED:
        keys = 65_536 * percent // 100
        for workload, more in ('hit', ''), ('mixed', ' --readers 0 --writers 1'), ('evict', ' --readers 0 --writers 1'):
            label = 'overwrite' if workload == 'mixed' else workload
            rows.append(Row(f'{label}, {percent} % of the slots', 'ns_each', options(workload, keys, f'{more} --most-used 100'), ('cefrodil',)))
    return rows


def shares():
    """How many lookups are busy where four threads write by turns, each in one of so many calls."""
    run = '--readers 0 --writers 4 --write-every'
    return [Row(f'{keys:,} keys, one write in {every}: busy lookups', 'busy_percent', options('mixed', keys, f' {run} {every}'), ('cefrodil',))
            for keys in TURNS_KEYS for every in TURNS_EVERY]


def sizes():
    return [lookups('hit', keys)[0] for keys in SIZES]


BENCHES = {'peers': peers(), 'large': large(False), 'huge': large(True), 'turns': turns(), 'threads': threads(), 'sizes': sizes(),
           'maps': maps(), 'kinds': kinds(), 'millions': millions(), 'full': full(), 'latencies': latencies(), 'puts': puts(), 'used': used(), 'shares': shares()}


def alone(run):
    """Whether one thread works."""
    words = run.split()
    given = dict(zip(words[::2], words[1::2]))
    return int(given.get('--readers', 1)) + int(given.get('--writers', 0)) == 1


def measure(built, run, huge, name, number, each, core):
    """What a contestant prints of a workload. Several threads run twice as long."""
    program, *more = PROGRAMS.get(name, (name,))
    seconds = each if alone(run) else 2 * each
    words = [f'{built}/{program}', *run.split(), '--seconds', str(seconds), '--seed', str(number), *more]
    if alone(run):
        words = ['taskset', '--cpu-list', core, *words]
    pages = {'GLIBC_TUNABLES': 'glibc.malloc.hugetlb=1'} if huge else {}
    done = subprocess.run(words, env={**os.environ, **pages}, capture_output=True, text=True, timeout=120)
    if done.returncode != 0:
        sys.exit(f'contests.py: {" ".join(words)}: {done.stderr}')
    told = json.loads(done.stdout)
    if told.get('torn'):
        sys.exit(f'contests.py: {" ".join(words)}: a lookup gave a torn or wrong value')
    ratio = {'hit': 1, 'mixed': 1, 'miss': 0}.get(run.split()[1])
    if ratio is not None and abs(told.get('hit_ratio', ratio) - ratio) > 0.001:
        sys.exit(f'contests.py: {" ".join(words)}: {told["hit_ratio"]} of the lookups are hits')
    return told


def run_rounds(names, built, path):
    rounds, each = int(os.environ.get('ROUNDS', 21)), float(os.environ.get('SECONDS_EACH', 0.05))
    core = os.environ.get('CORE', str(max(os.sched_getaffinity(0))))
    runs = {}
    for row in (row for name in names for row in BENCHES[name]):
        runs.setdefault((row.options, row.huge), {}).update(dict.fromkeys(map(row.program, row.names)))
    with open(path, 'w') as file:
        for number in range(1, rounds + 1):
            print(f'{"+".join(names)}: round {number} of {rounds}', file=sys.stderr, flush=True)
            for (run, huge), contestants in runs.items():
                for name in random.sample(list(contestants), len(contestants)):
                    told = measure(built, run, huge, name, number, each, core)
                    print(json.dumps({'round': number, 'run': run, 'huge': huge, 'name': name, 'told': told}), file=file, flush=True)


def read(path):
    """What was told, by workload, pages and contestant: what each round gave."""
    told = {}
    for line in open(path):
        record = json.loads(line)
        told.setdefault((record['run'], record['huge'], record['name']), {})[record['round']] = record['told']
    return told


def is_measured(told, row):
    """Whether all contestants of the row ran. An earlier tree had fewer rows."""
    return all((row.options, row.huge, row.program(name)) in told for name in row.names)


def values(told, row, name):
    """A contestant's figures in the rounds."""
    rounds = told[row.options, row.huge, row.program(name)].values()
    if row.figure == 'busy_percent':
        return [100 * each['busy'] / each['lookups'] for each in rounds]
    if row.figure == 'ns_each':
        return [each['ns_lookup'] or 1e9 / each['writes_s'] for each in rounds]
    # Programs that are no maps tell their lookups by other names.
    figure = row.figure if all(row.figure in each for each in rounds) else {'ns_call': 'ns_lookup', 'calls_s': 'lookups_s'}[row.figure]
    return [each[figure] for each in rounds]


def quartiles(numbers):
    return statistics.quantiles(numbers, n=4, method='inclusive') if len(numbers) > 1 else numbers * 3


def marked(numbers, show):
    """The median, with a mark if the quartiles are far apart."""
    low, middle, high = quartiles(numbers)
    return ('~' if high - low > abs(middle) / 10 else '') + show(middle)


def cell(told, row, name):
    return marked(values(told, row, name), SHOW[row.figure]) if name in row.names else '-'


def table(bench, told):
    names = {'turns': WRITERS, 'maps': tuple(MAPS), 'millions': (*FROM_C, *LARGE_MAPS), 'kinds': tuple(KINDS), 'full': tuple(POLICIES), 'latencies': TIMED, 'shares': ('cefrodil',)}.get(bench, ALL)
    lines = ['| | ' + ' | '.join(SHOWN[name] for name in names) + ' |', '|---' * (len(names) + 1) + '|']
    for row in filter(lambda row: is_measured(told, row), BENCHES[bench]):
        lines.append(f'| {row.title()} | ' + ' | '.join(cell(told, row, name) for name in names) + ' |')
    return '\n'.join(lines)


def main(arguments):
    if len(arguments) == 4 and arguments[0] == 'run':
        run_rounds(arguments[1].split(','), arguments[2], arguments[3])
    elif len(arguments) == 3 and arguments[0] == 'table':
        print(table(arguments[1], read(arguments[2])))
    else:
        sys.exit(__doc__)


if __name__ == '__main__':
    main(sys.argv[1:])
