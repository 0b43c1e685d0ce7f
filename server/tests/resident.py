#!/usr/bin/env python3
"""The memory of the process stays near -m while the sizes of values change, and while clients leave values unfinished. Items that have expired go by themselves.

usage: resident.py CEFRODILD
"""
import contextlib
import random
import sys
import time

from running import ask, connect, memory_of, running, stats

MEGABYTE = 1 << 20
MEMORY = 64

# The least and the largest size of values, one phase after the other.
PHASES = [(10, 100), (5_000, 60_000), (900_000, 1_000_000), (1, 1_000), (1, 100_000)]

# At most this part of -m is exceeded.
MOST = 1.15


def sets(sizes, first, draw):
    """Some commands with new keys from this number on, and how many they are."""
    count = 200 if sizes[1] < 200_000 else 4
    lengths = [draw.randint(*sizes) for _ in range(count)]
    return b''.join(b'set k%d 0 0 %d noreply\r\n%s\r\n' % (first + place, length, b'v' * length) for place, length in enumerate(lengths)), count


def sizes_change(program):
    draw, number, highest = random.Random(1), 0, 0
    with running(program, '-m', str(MEMORY)) as (server, port), contextlib.ExitStack() as stack:
        clients = [stack.enter_context(connect(port)) for _ in range(4)]
        for sizes in PHASES:
            sent, batches = 0, 0
            # Small values fill the memory with fewer bytes.
            while sent < 1.5 * MEMORY * MEGABYTE and batches < 1200:
                commands, count = sets(sizes, number, draw)
                number, sent, batches = number + count, sent + len(commands), batches + 1
                assert ask(clients[batches % 4], commands + b'mn\r\n') == b'MN\r\n'
                highest = max(highest, memory_of(server))
            assert stats(clients[0])['bytes'] > MEMORY * MEGABYTE / 3, sizes
    assert highest < MOST * MEMORY * MEGABYTE, f'{highest / MEGABYTE:.1f} MB of {MEMORY}'


def large_values_follow_small_ones(program):
    """The small items are stored in an order of their own, so in memory old ones lie among new ones."""
    draw, highest = random.Random(1), 0
    with running(program, '-m', str(MEMORY // 2)) as (server, port), connect(port) as client:
        for _ in range(1_500):
            commands = [b'set k%d 0 0 %d noreply\r\n%s\r\n' % (draw.randrange(300_000), length, b'v' * length)
                        for length in (int(1_000 ** draw.random()) for _ in range(200))]
            assert ask(client, b''.join(commands) + b'mn\r\n') == b'MN\r\n'
        for key in range(60):
            length = draw.randint(500_000, 1_000_000)
            assert ask(client, b'set large%d 0 0 %d\r\n%s\r\n' % (key, length, b'v' * length)) == b'STORED\r\n'
            highest = max(highest, memory_of(server))
    assert highest < MOST * MEMORY * MEGABYTE / 2, f'{highest / MEGABYTE:.1f} MB of {MEMORY // 2}'


def unfinished_values(program):
    """Clients that don't finish their values have them refused when they hold half of -m, but for 8 KB each. Others are served meanwhile."""
    most, part = 8 * MEGABYTE, b'v' * 900_000
    with running(program, '-m', '16') as (server, port), contextlib.ExitStack() as stack, connect(port) as other:
        before = memory_of(server)
        rude = [stack.enter_context(connect(port)) for _ in range(60)]
        for client in rude:
            client.sendall(b'set key 0 0 1048576\r\n' + part)
            assert ask(other, b'set k 0 0 1\r\nv\r\nget k\r\n', b'END\r\n') == b'STORED\r\nVALUE k 0 1\r\nv\r\nEND\r\n'
        # Within a turn a client may hold more.
        found = wait_for(other, lambda found: found['store_no_memory'] >= 50 and 0 < found['buffer_bytes'] <= most + 61 * 8192)
        assert (found['curr_connections'], found['connections_out_of_memory']) == (61, 0), found
        assert memory_of(server) - before < most + 8 * MEGABYTE, memory_of(server) - before
        answers = [ask(client, b'v' * (1048576 - len(part)) + b'\r\n') for client in rude]
        assert set(answers) == {b'STORED\r\n', b'SERVER_ERROR out of memory storing object\r\n'}, set(answers)
        assert answers.count(b'STORED\r\n') < 10, answers
        stack.close()
        assert wait_for(other, lambda found: found['curr_connections'] == 1)['buffer_bytes'] == 0


def heap_of(server):
    """How many bytes the C library's allocator has for blocks that it does not map by themselves: items are among them."""
    with open(f'/proc/{server.pid}/maps', encoding='ascii') as file:
        start, end = next(line for line in file if line.endswith('[heap]\n')).split()[0].split('-')
        return int(end, 16) - int(start, 16)


def buffers_lie_apart(program):
    """What clients send and are answered takes no memory among the items, where it would leave holes."""
    size = 100_000
    with running(program, '-t', '1') as (server, port), connect(port) as client:
        assert ask(client, b'mn\r\n') == b'MN\r\n'
        before = heap_of(server)
        line = b'set k 0 0 %d\r\n' % size
        assert ask(client, line + b'v' * (size + 2) + b'\r\n', b'\nERROR\r\n') == b'CLIENT_ERROR bad data chunk\r\nERROR\r\n'
        assert heap_of(server) - before < size / 2, heap_of(server) - before
        assert ask(client, line + b'v' * size + b'\r\n') == b'STORED\r\n'
        before = heap_of(server)
        assert len(ask(client, b'get k\r\n', b'END\r\n')) > size
        assert heap_of(server) - before < size / 2, heap_of(server) - before


def expired_items_go(program):
    with running(program, '-t', '2') as (_, port), connect(port) as client:
        commands = b''.join(b'set %d 0 %d 1 noreply\r\nv\r\n' % (key, key % 2) for key in range(2_000))
        assert ask(client, commands + b'mn\r\n') == b'MN\r\n'
        assert stats(client)['curr_items'] == 2_000
        # An item is counted right after it has gone.
        found = wait_for(client, lambda found: (found['curr_items'], found['crawler_reclaimed']) == (1_000, 1_000))
        assert found['evictions'] == 0, found


def wait_for(client, is_met):
    """The statistics when they are as they should become."""
    for _ in range(200):
        found = stats(client)
        if is_met(found):
            return found
        time.sleep(0.05)
    raise AssertionError(found)


for test in [expired_items_go, buffers_lie_apart, unfinished_values, sizes_change, large_values_follow_small_ones]:
    test(sys.argv[1])
print('resident: 5 tests: ok')
