#!/usr/bin/env python3
"""How much memory cefrodild and memcached take with one -m while the sizes of values change for a long time: in the second half beside a busy process
for each processor. Four clients each send bursts of sets and gets of drawn keys, and a few keys are looked up again and again. The servers run
one after the other. Prints a table. The cells of a half have the highest VmRSS in MB, and the highest without what connections hold, as `stats`
tells it before and after, as a multiple of -m.

With MCCHECK cefrodild runs once more, for as long, with --audit and less to do. Then mccheck's last line is printed.

usage: [MEMORY=M] [SERVERS=NAME,..] bench/churn.py LIB MINUTES [MCCHECK]     MEMORY: -m; none: 64; SERVERS: of cefrodild, memcached and audited; none:
all; LIB: the folder of libcefrodil.a, as c/build makes it; MCCHECK: the program of crates/mccheck

It needs cargo and, of Debian, memcached and the server's crates: see server/README.md.
"""
import contextlib
import multiprocessing
import os
import random
import subprocess
import sys
import tempfile
import time

from servers import MEMCACHED, built, connected, running

MEGABYTE = 1 << 20
MEMORY = int(os.environ.get('MEMORY', '64'))
SERVERS = os.environ.get('SERVERS', 'cefrodild,memcached,audited').split(',')
CLIENTS = 4
# The least and the largest size of values, one phase after the other. The logarithm of a size is drawn.
PHASES = ((10, 100), (10, 200_000), (5_000, 60_000), (1, 1_000), (500_000, 1_000_000), (100, 10_000))
PHASE_SECONDS = 10
KEYS = 1_000_000
OFTEN = 100


def ask(client, commands, end):
    """What answers the commands, of which the last has this answer."""
    client.sendall(commands)
    answers = bytearray()
    while not answers.endswith(end):
        part = client.recv(1 << 18)
        if not part:
            sys.exit('churn.py: the server has closed a connection')
        answers += part
    return answers


def burst(client, draw, sizes):
    """Sets and gets. Returns how many sets there were."""
    count = 4 if sizes[1] > 200_000 else 20
    lengths = [int(sizes[0] * (sizes[1] / sizes[0]) ** draw.random()) for _ in range(count)]
    sets = [b'set key%d 0 0 %d noreply\r\n%s\r\n' % (draw.randrange(KEYS), length, b'v' * length) for length in lengths]
    gets = [b'get key%d\r\n' % draw.randrange(OFTEN if place % 2 else KEYS) for place in range(count)]
    ask(client, b''.join(sets + gets) + b'mn\r\n', b'MN\r\n')
    return count


def churn(port, seed, end, pause, sets):
    """One client, until the end."""
    draw, begun = random.Random(seed), time.monotonic()
    with connected(port) as client:
        while time.monotonic() < end:
            done = burst(client, draw, PHASES[int((time.monotonic() - begun) / PHASE_SECONDS) % len(PHASES)])
            with sets.get_lock():
                sets.value += done
            time.sleep(pause)


def held(client):
    """What connections hold, in bytes."""
    lines = dict(line.split()[1:3] for line in bytes(ask(client, b'stats\r\n', b'END\r\n')).splitlines() if line.count(b' ') == 2)
    return int(lines.get(b'buffer_bytes', lines.get(b'read_buf_bytes', 0)))


def highest(process, port, end):
    """The highest memory until then, in all and without what connections hold, in bytes."""
    most, most_without = 0, 0
    with connected(port) as client:
        while time.monotonic() < end:
            before = held(client)
            with open(f'/proc/{process}/statm', encoding='ascii') as file:
                memory = int(file.read().split()[1]) * os.sysconf('SC_PAGESIZE')
            # Buffers come and go before the memory is read and after that.
            most, most_without = max(most, memory), max(most_without, memory - max(before, held(client)))
            time.sleep(0.1)
    return most, most_without


@contextlib.contextmanager
def busy_processors():
    """A process for each processor that does nothing else."""
    others = [subprocess.Popen(['sh', '-c', 'while :; do :; done']) for _ in range(os.cpu_count())]
    try:
        yield
    finally:
        for other in others:
            other.kill()
            other.wait()


def run(server, seconds, pause):
    """The highest memory of both halves, and how many sets there were."""
    with running(server, MEMORY, 4) as (process, port):
        begun, sets = time.monotonic(), multiprocessing.Value('q', 0)
        clients = [multiprocessing.Process(target=churn, args=(port, seed, begun + seconds, pause, sets)) for seed in range(CLIENTS)]
        for client in clients:
            client.start()
        alone = highest(process, port, begun + seconds / 2)
        with busy_processors():
            beside = highest(process, port, begun + seconds)
        for client in clients:
            client.join()
            if client.exitcode != 0:
                sys.exit('churn.py: a client failed')
        return alone, beside, sets.value


def row(name, server, seconds, pause):
    """Prints a row of the table."""
    alone, beside, sets = run(server, seconds, pause)
    cells = (f'{most / MEGABYTE:.0f}; {without / MEGABYTE / MEMORY:.2f}' for most, without in (alone, beside))
    print(f'|{name}|{"|".join(cells)}|{sets // 1000:,}|', flush=True)


def main(arguments):
    if len(arguments) not in (2, 3) or not os.path.isfile(f'{arguments[0]}/libcefrodil.a') or not arguments[1].isdigit():
        sys.exit(__doc__)
    seconds = 60 * int(arguments[1])
    with tempfile.TemporaryDirectory(prefix='churn-') as folder:
        program, log = built(arguments[0], folder)[0], f'{folder}/log'
        print('||alone|beside busy processes|sets, thousands|\n|---|---|---|---|')
        for name, server in ('cefrodild', program), ('memcached', MEMCACHED):
            if name in SERVERS:
                row(name, server, seconds, 0)
        if 'audited' in SERVERS and len(arguments) == 3:
            row('cefrodild with a log', [*program, '-n', '10000', '--audit', log], seconds, 0.05)
            print(subprocess.run([arguments[2], log], check=True, capture_output=True, text=True).stdout.splitlines()[-1])


main(sys.argv[1:])
