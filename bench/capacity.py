#!/usr/bin/env python3
"""How many items cefrodild and memcached keep with the same -m, and what their processes take then. Each server gets new keys of 12 bytes, three
times as many as there is room for, with values of one size. Prints a table. A cell has the items that `stats` tells, and the process's memory
(VmRSS) in MB.

usage: bench/capacity.py LIB     LIB: the folder of libcefrodil.a, as c/build makes it

It needs cargo and, of Debian, memcached and the server's crates: see server/README.md.
"""
import os
import sys
import tempfile

from servers import MEMCACHED, asked_library, built, connected, running

MEGABYTES = 64
SIZES = (32, 300, 4000)
BATCH = 200


def fill(client, size):
    """Stores new keys."""
    answers = client.makefile('rb')
    for first in range(0, 3 * (MEGABYTES << 20) // (size + 100), BATCH):
        client.sendall(b''.join(b'set key:%08d 0 0 %d\r\n%s\r\n' % (key, size, b'v' * size) for key in range(first, first + BATCH)))
        if any(answers.readline() != b'STORED\r\n' for _ in range(BATCH)):
            sys.exit('a value is not stored')
    return answers


def told(server, size):
    """The items of a full server, and its memory in MB."""
    with running(server, MEGABYTES, 4) as (process, port), connected(port) as client:
        answers = fill(client, size)
        client.sendall(b'stats\r\n')
        lines = iter(answers.readline, b'END\r\n')
        items = next(int(line.split()[2]) for line in lines if line.startswith(b'STAT curr_items '))
        with open(f'/proc/{process}/statm', encoding='ascii') as file:
            return items, int(file.read().split()[1]) * os.sysconf('SC_PAGESIZE') >> 20


def main():
    library = asked_library(__doc__)
    with tempfile.TemporaryDirectory(prefix='capacity-') as folder:
        servers = {'cefrodild': built(library, folder)[0], 'memcached': MEMCACHED}
        print(f'||{"|".join(servers)}|\n|---|---|---|')
        for size in SIZES:
            cells = (told(server, size) for server in servers.values())
            print(f'|values of {size:,} bytes|{"|".join(f"{items:,}; {memory} MB" for items, memory in cells)}|', flush=True)


main()
