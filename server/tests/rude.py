#!/usr/bin/env python3
"""Slow and hostile clients: none harms another one, and the server stays small. And the end: what was sent before SIGTERM is answered.

usage: rude.py CEFRODILD
"""
import contextlib
import os
import random
import resource
import select
import signal
import socket
import struct
import subprocess
import sys
import tempfile
import time

from running import TIMEOUT, ask, connect, memory_of, rest, running, stats

MEGABYTE = 1 << 20
END = b'END\r\n'


def too_many_clients(program):
    """They are told so, and the operator is told once."""
    with running(program, '-c', '3', stderr=subprocess.PIPE) as (server, port):
        clients = [connect(port) for _ in range(3)]
        assert all(ask(client, b'mn\r\n') == b'MN\r\n' for client in clients)
        for _ in range(5):
            with connect(port) as late:
                assert rest(late) == b'ERROR Too many open connections\r\n'
        found = stats(clients[0])
        assert [found[name] for name in ['curr_connections', 'total_connections', 'rejected_connections']] == [3, 3, 5], found
        clients[0].close()
        for _ in range(3000):
            with connect(port) as next_client:
                if ask(next_client, b'mn\r\n') == b'MN\r\n':
                    break
            time.sleep(0.02)
        else:
            raise AssertionError('a free seat is not given away')
        server.terminate()
        assert server.stderr.read() == 'cefrodild: clients are turned away: 3 are connected (-c)\n'


def client_that_does_not_read(program):
    """It asks for 200 MB. The server must not keep them."""
    value, times = b'v' * 100_000, 2000
    answer = b'VALUE k 0 %d\r\n%s\r\nEND\r\n' % (len(value), value)
    with running(program, '-t', '1') as (server, port), connect(port) as rude, connect(port) as other:
        assert ask(other, b'set k 0 0 %d\r\n%s\r\n' % (len(value), value)) == b'STORED\r\n'
        before = memory_of(server)
        rude.sendall(b'get k\r\n' * times)
        for _ in range(100):
            assert ask(other, b'get nothing\r\n') == END
        assert memory_of(server) - before < 2 * MEGABYTE, memory_of(server) - before
        total = 0
        while total < len(answer) * times:
            part = rude.recv(MEGABYTE)
            assert part
            total += len(part)
        assert ask(rude, b'mn\r\n') == b'MN\r\n'


def client_that_stops_halfway(program):
    """Neither a promise of a long value nor a line takes memory, or keeps anybody waiting."""
    with running(program, '-t', '1', '-c', '200') as (server, port), contextlib.ExitStack() as stack:
        before = memory_of(server)
        rude = [stack.enter_context(connect(port)) for _ in range(100)]
        # It connected last, so it has its turns behind theirs.
        other = stack.enter_context(connect(port))
        for part in [b'set key 0 0 1048576\r\nv', b'v']:
            for client in rude:
                client.sendall(part)
            assert ask(other, b'get key\r\n') == END
            assert memory_of(server) - before < 4 * MEGABYTE, memory_of(server) - before
        assert ask(rude[0], b'v' * (MEGABYTE - 2) + b'\r\n') == b'STORED\r\n'
        for client in rude:
            client.close()
        with connect(port) as endless:
            assert ask(endless, b'x' * 5000) == b'CLIENT_ERROR line too long\r\n'
            assert endless.recv(100) == b''


@contextlib.contextmanager
def stopped(server):
    """While the server is stopped, the system completes connections and keeps what they bring."""
    server.send_signal(signal.SIGSTOP)
    os.waitpid(server.pid, os.WUNTRACED)
    try:
        yield
    finally:
        server.send_signal(signal.SIGCONT)


def crowd(program):
    """More clients at once than are accepted in one round."""
    with running(program) as (server, port), contextlib.ExitStack() as stack:
        with stopped(server):
            clients = [stack.enter_context(connect(port)) for _ in range(200)]
        assert all(ask(client, b'mn\r\n') == b'MN\r\n' for client in clients)


def clients_of_each_worker(program):
    """Each has as many as any other. The system tells which connections it waits for."""
    with running(program, '-t', '4') as (server, port), contextlib.ExitStack() as stack:
        clients = [stack.enter_context(connect(port)) for _ in range(12)]
        assert all(ask(client, b'mn\r\n') == b'MN\r\n' for client in clients)
        folder, shares = f'/proc/{server.pid}', []
        for number in os.listdir(f'{folder}/fd'):
            with open(f'{folder}/fdinfo/{number}', encoding='ascii') as file:
                waits_for = [line.split()[1] for line in file if line.startswith('tfd:')]
            sockets = [other for other in waits_for if os.readlink(f'{folder}/fd/{other}').startswith('socket:')]
            if waits_for:
                shares.append(len(sockets))
        # The fifth waits for clients.
        assert sorted(shares) == [1, 3, 3, 3, 3], shares


def leave(client, manner):
    """Ends a connection: in order, halfway, by a reset, or so that the server ends it."""
    if manner == 'reset':
        client.setsockopt(socket.SOL_SOCKET, socket.SO_LINGER, struct.pack('ii', 1, 0))
    elif manner == 'no more':
        client.shutdown(socket.SHUT_WR)
        assert rest(client) == b''
    elif manner in ENDS:
        client.sendall(manner)
        assert rest(client) == ENDS[manner]
    else:
        client.sendall(b'set k 0 0 1000\r\nv' if manner == 'in a block' else b'get k k' * 400)
    client.close()


ENDS = {b'quit\r\n': b'', b'set k 0 0 1\r\nv\r\nquit\r\n': b'STORED\r\n', b'x' * 2048: b'CLIENT_ERROR line too long\r\n'}


def clients_that_leave(program):
    """However they do, their seats and descriptors are free again, and the others are answered."""
    with running(program, '-t', '2', '-c', '40') as (server, port), connect(port) as other:
        assert ask(other, b'mn\r\n') == b'MN\r\n'
        folder, total = f'/proc/{server.pid}/fd', 1
        before = len(os.listdir(folder))
        for manner in ['reset', 'no more', 'in a block', 'in a line', *ENDS]:
            clients = [connect(port) for _ in range(30)]
            assert all(ask(client, b'mn\r\n') == b'MN\r\n' for client in clients), manner
            for client in clients:
                leave(client, manner)
            end, total = time.monotonic() + TIMEOUT, total + 30
            while len(os.listdir(folder)) > before or stats(other)['curr_connections'] != 1:
                assert time.monotonic() < end, (manner, stats(other)['curr_connections'], len(os.listdir(folder)) - before)
            assert stats(other)['total_connections'] == total, manner


def client_that_sends_no_more(program):
    """The end of its input comes together with its last bytes."""
    with running(program) as (server, port):
        with stopped(server):
            rude = connect(port)
            rude.sendall(b'mn\r\n')
            rude.shutdown(socket.SHUT_WR)
        with rude:
            assert rest(rude) == b'MN\r\n'


def complaints_that_nobody_reads(program):
    """The server lacks file descriptors for some clients, and nobody reads what it says of that. The others are answered."""
    reader, writer = os.pipe()
    with running(program, '-t', '1', stderr=writer) as (server, port), contextlib.ExitStack() as stack:
        os.close(reader)
        os.close(writer)
        resource.prlimit(server.pid, resource.RLIMIT_NOFILE, (24, 24))
        clients = [stack.enter_context(connect(port)) for _ in range(40)]
        # In that time it has tried again.
        time.sleep(0.1)
        assert ask(clients[0], b'mn\r\n') == b'MN\r\n'
        for client in clients[:-1]:
            client.close()
        assert ask(clients[-1], b'mn\r\n') == b'MN\r\n'


def complaints(program):
    """The operator is told of clients that can't be accepted, and only once, though the server tries again twenty times a second."""
    with running(program, '-t', '1', stderr=subprocess.PIPE) as (server, port), contextlib.ExitStack() as stack:
        resource.prlimit(server.pid, resource.RLIMIT_NOFILE, (24, 24))
        for _ in range(40):
            stack.enter_context(connect(port))
        assert select.select([server.stderr], [], [], TIMEOUT)[0], 'nothing is said'
        assert server.stderr.readline().startswith("cefrodild: clients can't be accepted: ")
        assert not select.select([server.stderr], [], [], 0.3)[0], server.stderr.readline()


def client_that_is_always_halfway(program):
    """It sends the first byte of a command with the one before. What is done with does not stay in the buffer."""
    value = b'v' * 15_000
    with running(program, '-t', '1') as (server, port), connect(port) as client:
        before = memory_of(server)
        client.sendall(b's')
        for _ in range(600):
            assert ask(client, b'et k 0 0 %d\r\n%s\r\ns' % (len(value), value)) == b'STORED\r\n'
        assert memory_of(server) - before < 4 * MEGABYTE, memory_of(server) - before


def log(program):
    """It tells of changes and lookups, and its errors are the server's."""
    with tempfile.NamedTemporaryFile() as file:
        for path, status in [(file.name, 0), ('/dev/full', 1)]:
            with running(program, '--audit', path, stderr=subprocess.PIPE) as (server, port), connect(port) as client:
                assert ask(client, b'get k\r\nset k 0 0 1\r\nv\r\nget k\r\ndelete k\r\n', end=b'DELETED\r\n').endswith(b'v\r\nEND\r\nDELETED\r\n')
                server.send_signal(signal.SIGTERM)
                assert (server.wait(5), bool(server.stderr.read())) == (status, status > 0)
        words = [line.split()[0] for line in file.read().decode().splitlines()]
        assert words[0] == 'words' and {'absent', 'put', 'found', 'remove'} <= set(words), words


def noise(program):
    draw = random.Random(1)
    with running(program) as (_, port):
        for _ in range(50):
            with connect(port) as rude:
                rude.settimeout(0.01)
                try:
                    for _ in range(20):
                        rude.sendall(draw.randbytes(draw.randrange(5000)) + draw.choice([b'', b'\r\n', b'\r\nget a\r\nset a 0 0 10\r\n']))
                        rude.recv(MEGABYTE)
                except OSError:
                    pass
        with connect(port) as other:
            assert ask(other, b'mn\r\n') == b'MN\r\n'


def end(program):
    answer = b'VALUE k 0 5\r\nvalue\r\n'
    # Those that connected first have their last turn first.
    with running(program, '-t', '1') as (server, port), connect(port) as reader, connect(port) as asker, connect(port) as idle, connect(port) as halfway:
        assert ask(idle, b'set k 0 0 5\r\nvalue\r\n') == b'STORED\r\n'
        # Its line is so long that it is answered before it ends.
        assert ask(reader, b'get' + b' k' * 2000 + b' ', end=answer * 2000) == answer * 2000
        assert ask(asker, b'mn\r\n') == b'MN\r\n'
        halfway.sendall(b'set other 0 0 5\r\nva')
        asker.sendall(b'get k\r\n' * 10_000)
        server.send_signal(signal.SIGTERM)
        assert rest(asker) == (answer + END) * 10_000
        assert rest(idle) == b''
        reader.sendall(b'k\r\n')
        assert rest(reader) == answer + END
        assert server.wait(5) == 0
    for number in [signal.SIGTERM, signal.SIGINT]:
        with running(program) as (server, port), connect(port) as halfway, connect(port) as idle:
            assert ask(halfway, b'mn\r\nset k 0 0 5\r\nva') == b'MN\r\n' and ask(idle, b'mn\r\n') == b'MN\r\n'
            server.send_signal(number)
            assert rest(idle) == b''
            assert ask(halfway, b'lue\r\n') == b'STORED\r\n' and rest(halfway) == b''
            assert server.wait(5) == 0


def memory(program):
    """Items take all but a little of what is left of `-m` and a tenth, and the server no more than 1.15 times `-m`, after many keys have come and gone."""
    limit, value = 32 * MEGABYTE, b'v' * 100_000
    keys = [b'%d' % number + b'k' * 240 for number in range(30_000)]
    with running(program, '-m', '32', '-n', '30000', '-t', '1') as (server, port), connect(port) as client:
        without_items = memory_of(server)
        for line in [b'set %s 0 0 0 noreply\r\n\r\n'] * 2 + [b'delete %s noreply\r\n']:
            client.sendall(b''.join(line % key for key in keys))
        for number in range(400):
            assert ask(client, b'set %d 0 0 %d\r\n%s\r\n' % (number, len(value), value)) == b'STORED\r\n'
        found, most = stats(client), limit * 11 // 10 - without_items
        # When it counted its memory it took a little less.
        assert found['evictions'] > 0 and most - MEGABYTE <= found['bytes'] <= most + MEGABYTE, (found, without_items)
        assert memory_of(server) <= 1.15 * limit, memory_of(server)


def items(program):
    """There is a place for each item of `-n`, and not for many more."""
    with running(program, '-m', '16', '-n', '2000') as (_, port), connect(port) as client:
        # Its parts fill unevenly, so it is half full at first.
        for keys, is_enough in [(1000, True), (20_000, False)]:
            client.sendall(b''.join(b'set %d 0 0 0 noreply\r\n\r\n' % key for key in range(keys)))
            assert ask(client, b'mn\r\n') == b'MN\r\n'
            found = stats(client)
            assert (found['curr_items'] == keys and found['evictions'] == 0) == is_enough, found
        assert found['curr_items'] + found['evictions'] == 20_000 and found['curr_items'] < 4000, found


def main():
    tests = [too_many_clients, crowd, clients_of_each_worker, clients_that_leave, client_that_does_not_read, client_that_stops_halfway, client_that_sends_no_more, complaints, complaints_that_nobody_reads, client_that_is_always_halfway, noise, end, log, memory, items]
    for test in tests:
        test(sys.argv[1])
    print(f'rude: {len(tests)} tests: ok')


if __name__ == '__main__':
    main()
