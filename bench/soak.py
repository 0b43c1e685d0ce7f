#!/usr/bin/env python3
"""Three services that share the machine for a long time. Each runs `mcload` again and again, with a new seed each time: its threads write to shards by
turns and look up, and each answer is checked. Prints a table, whose cells are percentiles over the runs or over their threads. Ends with 1 if
an answer was wrong, or a run failed; then it says which.

usage: bench/soak.py PROGRAM MINUTES     PROGRAM: the program of crates/mcload
"""
import concurrent.futures
import re
import statistics
import subprocess
import sys
import time
from collections import defaultdict

# What each service asks for: many keys, of which a sixth has room, by each policy, and few keys that are always there.
MANY = '--shards 16 --writers 4 --readers 4 --lookups 400000 --writes 100000 --keys 60000 --buckets 256 --items 640'
SERVICES = {
    'many keys': MANY,
    'many keys, scan-resistant': f'{MANY} --scan-resistant',
    'few keys': '--shards 4 --writers 2 --readers 4 --lookups 400000 --writes 100000 --keys 64',
}
SHARES = (1, 10, 50, 90, 99)
LINE = re.compile(r'^(reader|writer) \d+ calls/s (\d+) busy (\d+)(?: held (\d+) answered \d+)?$', re.MULTILINE)
RIGHT = re.compile(r'^lookups (\d+)\nwrites (\d+)\nsum ok\nwrong 0\n')


def run(program, options, seed, told):
    """One run of a service. Adds what its threads did to the figures."""
    words = [program, 'run', *options.split(), '--seed', str(seed), '--histogram']
    begun = time.monotonic()
    ended = subprocess.run(words, capture_output=True, text=True)
    told['seconds of a run'].append(time.monotonic() - begun)
    right = RIGHT.match(ended.stdout)
    if ended.returncode != 0 or not right:
        sys.exit(f'soak.py: {" ".join(words)} ended with {ended.returncode}: {ended.stdout}{ended.stderr}')
    lookups, writes = map(int, right.groups())
    told['calls'].append(lookups + writes)
    threads = LINE.findall(ended.stdout)
    readers = [(int(calls), int(busy)) for who, calls, busy, _ in threads if who == 'reader']
    writers = [(int(calls), int(held)) for who, calls, _, held in threads if who == 'writer']
    told['lookups a second of a thread, thousands'] += [calls / 1000 for calls, _ in readers]
    told['busy, of a million lookups'].append(1e6 * sum(busy for _, busy in readers) / lookups)
    told['writes a second of a thread, thousands'] += [calls / 1000 for calls, _ in writers]
    told['held, of a thousand tries'].append(1e3 * sum(held for _, held in writers) / writes)


def serve(program, options, first_seed, end):
    """The figures of the runs of a service until the end."""
    told, seed = defaultdict(list), first_seed
    while time.monotonic() < end:
        run(program, options, seed, told)
        seed += len(SERVICES)
    return told


def shown(number):
    return f'{number:.2f}' if number < 10 else f'{number:,.0f}'


def table(figures):
    yield '||' + '|'.join(f'{share} %' for share in SHARES) + '|most|'
    yield '|---' * (len(SHARES) + 2) + '|'
    for service, told in figures.items():
        calls = told.pop('calls')
        yield f'|**{service}**: {len(calls):,} runs, {sum(calls) / 1e6:,.0f} million calls' + '|' * (len(SHARES) + 2)
        for name, numbers in told.items():
            cuts = statistics.quantiles(numbers, n=100, method='inclusive')
            yield f'|{name}|' + '|'.join(shown(cuts[share - 1]) for share in SHARES) + f'|{shown(max(numbers))}|'


def main(arguments):
    if len(arguments) != 2 or not arguments[1].isdigit() or int(arguments[1]) == 0:
        sys.exit(__doc__)
    program, end = arguments[0], time.monotonic() + 60 * int(arguments[1])
    with concurrent.futures.ThreadPoolExecutor(len(SERVICES)) as pool:
        begun = [pool.submit(serve, program, options, place + 1, end) for place, options in enumerate(SERVICES.values())]
        figures = dict(zip(SERVICES, (each.result() for each in begun)))
    print('\n'.join(table(figures)))


if __name__ == '__main__':
    main(sys.argv[1:])
