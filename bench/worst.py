"""What the cache costs at worst and once: the first put after every item was used, a refused put in a table with as many items as slots,
and opening, all from C; then, from Rattle, listing the entries of a cache and opening one of twice the size with them; and the heap
of one more handle from C. A cell is the median of the rounds, marked as bench/contests.py does.

usage: [ROUNDS=N] python3 bench/worst.py BUILT FILE     BUILT: a folder of bench/build; FILE: gets a line of JSON for each run; ROUNDS: none: 7
"""
import json
import os
import subprocess
import sys

from contests import LARGEST, marked

SIZES = (100_000, 1_000_000, LARGEST // 2, LARGEST)
ROWS = (('put when every item was used', 'all_used_ms', 'ms'), ('refused put, as many items as slots', 'refused_us', 'µs'), ('opening', 'opening_ms', 'ms'),
        ('listing all entries (`close`)', 'listed_ms', 'ms'), ('opening a table of twice the size with them', 'grown_ms', 'ms'),
        ('heap of one more handle, any table', 'handle_bytes', 'bytes'))


def told_by(*words):
    core = os.environ.get('CORE', str(max(os.sched_getaffinity(0))))
    return json.loads(subprocess.run(['taskset', '--cpu-list', core, *words], check=True, capture_output=True, text=True).stdout)


def measure(built, size, number):
    told = {'size': size, **told_by(f'{built}/worst_puts', str(size), str(number))}
    if size != SIZES[0]:
        del told['handle_bytes']
    if 2 * size <= LARGEST:
        grown = told_by(f'{built}/mcbench', '--workload', 'grow', '--capacity', str(size), '--seed', str(number))
        told.update(listed_ms=grown['listed_ns'] / 1e6, grown_ms=grown['written_ns'] / 1e6)
    return told


def shown(number):
    return f'{number:.1f}' if number < 10 else f'{number:,.0f}'


def table(records):
    lines = ['| | ' + ' | '.join(f'{size:,} items' for size in SIZES) + ' |', '|---' * (len(SIZES) + 1) + '|']
    for label, name, unit in ROWS:
        cells = []
        for size in SIZES:
            numbers = [record[name] for record in records if record['size'] == size and name in record]
            cells.append(f'{marked(numbers, shown)} {unit}' if numbers else '-')
        lines.append(f'| {label} | ' + ' | '.join(cells) + ' |')
    return '\n'.join(lines)


def main(arguments):
    if len(arguments) != 2:
        sys.exit(__doc__)
    rounds = range(1, int(os.environ.get('ROUNDS', 7)) + 1)
    records = [measure(arguments[0], size, number) for number in rounds for size in SIZES]
    with open(arguments[1], 'w') as file:
        file.writelines(json.dumps(record) + '\n' for record in records)
    print(table(records))


if __name__ == '__main__':
    main(sys.argv[1:])
