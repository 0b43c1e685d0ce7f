#!/usr/bin/env python3
"""What a command costs cefrodild and memcached: microseconds of processor time of the whole process, and in brackets the part that is not the
kernel's. Both have one worker and one client, which sends one command after the other, or a hundred at once. Client and server run on one
processor, since it costs a virtual machine much to wake another. Prints a table. A cell is the median of the rounds, in which the two alternate.

usage: [ROUNDS=N] [SECONDS_EACH=T] bench/commands.py LIB     LIB: the folder of libcefrodil.a, as c/build makes it; ROUNDS: none: 5; T: none: 2

It needs cargo and, of Debian, memcached and the server's crates: see server/README.md.
"""
import os
import random
import statistics
import sys
import tempfile
import time

from servers import MEMCACHED, asked_library, built, connected, running

KEYS = 10_000
TOGETHER = 100


def value_of(key, size):
    return (b'%08d' % key * (size // 8 + 1))[:size]


def a_set(keys, size):
    """A command that stores the first of these keys, and its answer."""
    return b'set key:%08d 0 0 %d\r\n%s\r\n' % (keys[0], size, value_of(keys[0], size)), b'STORED\r\n'


def a_get(keys, size):
    """A command that looks up these keys, and its answer."""
    found = b''.join(b'VALUE key:%08d 0 %d\r\n%s\r\n' % (key, size, value_of(key, size)) for key in keys)
    return b'get %s\r\n' % b' '.join(b'key:%08d' % key for key in keys), found + b'END\r\n'


# What a row is called, the command, how many keys it has, and how many are sent at once.
ROWS = (('get', a_get, 1, 1), ('get of 32 keys', a_get, 32, 1), (f'get, {TOGETHER} at once', a_get, 1, TOGETHER), ('set', a_set, 1, 1),
        (f'set, {TOGETHER} at once', a_set, 1, TOGETHER))
SIZES = (32, 1000)


def exchange(client, commands, answers):
    """Sends the commands, and compares the answers."""
    client.sendall(commands)
    told = bytearray()
    while len(told) < len(answers):
        part = client.recv(1 << 20)
        if not part:
            break
        told += part
    if told != answers:
        sys.exit(f'commands.py: {bytes(told[:60])} answers {commands[:60]}')


def drawn(command, keys, together, size):
    """Bytes to send, and those of the answer."""
    pairs = [command(random.sample(range(KEYS), keys), size) for _ in range(together)]
    return b''.join(each for each, _ in pairs), b''.join(answer for _, answer in pairs)


def spent(process):
    """Microseconds of processor time of the process so far, and those outside the kernel."""
    with open(f'/proc/{process}/stat', encoding='ascii') as file:
        user, kernel = (int(ticks) for ticks in file.read().rsplit(')', 1)[1].split()[11:13])
    tick = 1e6 / os.sysconf('SC_CLK_TCK')
    return (user + kernel) * tick, user * tick


def cost(server, row, size):
    """What a command of this row costs, in all and outside the kernel."""
    _, command, keys, together = row
    exchanges = [drawn(command, keys, together, size) for _ in range(1000)]
    with running(server, 512, 1) as (process, port), connected(port) as client:
        for first in range(0, KEYS, TOGETHER):
            pairs = [a_set([key], size) for key in range(first, first + TOGETHER)]
            exchange(client, b''.join(each for each, _ in pairs), b''.join(answer for _, answer in pairs))
        before, count, end = spent(process), 0, time.monotonic() + float(os.environ.get('SECONDS_EACH', '2'))
        while time.monotonic() < end:
            for commands, answers in exchanges:
                exchange(client, commands, answers)
            count += len(exchanges) * together
        return [(now - then) / count for now, then in zip(spent(process), before)]


def main():
    library = asked_library(__doc__)
    with tempfile.TemporaryDirectory(prefix='commands-') as folder:
        servers = {'cefrodild': built(library, folder)[0], 'memcached': MEMCACHED}
        os.sched_setaffinity(0, {max(os.sched_getaffinity(0))})
        print(f'||{"|".join(servers)}|\n|---|---|---|')
        for row in ROWS:
            for size in SIZES:
                runs = {name: [] for name in servers}
                for _ in range(int(os.environ.get('ROUNDS', '5'))):
                    for name, server in servers.items():
                        runs[name].append(cost(server, row, size))
                medians = ([statistics.median(run[place] for run in told) for place in range(2)] for told in runs.values())
                cells = (f'{whole:.2f} ({own:.2f})' for whole, own in medians)
                print(f'|{row[0]}, {size:,} bytes|{"|".join(cells)}|', flush=True)


main()
