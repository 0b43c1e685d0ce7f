#!/usr/bin/env python3
"""cefrodild beside memcached on this machine: thousands of requests a second, and the time of a request at the 50th, 99th and 99.9th percentile
in microseconds, as server/examples/load tells them. Both have as much memory and as many threads, and the clients run on the same processors.
Prints a table. A cell is the median of the rounds, in which the two alternate.

usage: [ROUNDS=N] [SECONDS_EACH=T] bench/server.py LIB     LIB: the folder of libcefrodil.a, as c/build makes it; ROUNDS: none: 5; T: none: 2

It needs cargo and, of Debian, memcached and the server's crates: see server/README.md.
"""
import os
import re
import statistics
import subprocess
import tempfile

from servers import MEMCACHED, asked_library, built, running

# What a row is called, how many threads the server has, and what the load does.
ROWS = [(f'{what}, {size:,} bytes, {threads} thread{"s" * (threads > 1)}', threads, f'{words} value={size}')
        for what, words in (('nine gets in ten', 'gets=9'), ('gets', 'gets=10'), ('gets of 32 keys', 'gets=10 batch=32'))
        for size in (32, 1000) for threads in (1, 2, 4)]


def answers(server, load, threads, words):
    """The numbers that the load tells of this server."""
    with running(server, 512, threads) as (_, port):
        each = os.environ.get('SECONDS_EACH', '2')
        run = [load, f'127.0.0.1:{port}', f'seconds={each}', f'clients={2 * threads}', *words.split()]
        told = subprocess.run(run, check=True, capture_output=True, text=True, timeout=100).stdout
    return [float(number) for number in re.search(r'(\d+) requests/s; us: p50 (\d+), p99 (\d+), p99.9 (\d+)', told).groups()]


def main():
    library = asked_library(__doc__)
    with tempfile.TemporaryDirectory(prefix='server-') as folder:
        program, load = built(library, folder)
        servers = {'cefrodild': program, 'memcached': MEMCACHED}
        print(f'||{"|".join(servers)}|\n|---|---|---|')
        for label, threads, words in ROWS:
            runs = {name: [] for name in servers}
            for _ in range(int(os.environ.get('ROUNDS', '5'))):
                for name, server in servers.items():
                    runs[name].append(answers(server, load, threads, words))
            medians = ([statistics.median(run[place] for run in told) for place in range(4)] for told in runs.values())
            cells = (f'{rate / 1000:.0f}; {half:.0f}, {most:.0f}, {nearly_all:.0f}' for rate, half, most, nearly_all in medians)
            print(f'|{label}|{"|".join(cells)}|', flush=True)


main()
