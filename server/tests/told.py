#!/usr/bin/env python3
"""What the operator is told: by options that ask, by errors, and by the statistics of a running server.

usage: told.py CEFRODILD
"""
import contextlib
import os
import re
import signal
import socket
import subprocess
import sys
import tempfile
import time

from running import USER, ask, connect, rest, running

END = b'END\r\n'


def run(program, *words):
    return subprocess.run([program, *USER, *words], capture_output=True, text=True, timeout=10, check=False)


def questions(program):
    for word in ['-h', '--help']:
        ran = run(program, word)
        assert (ran.returncode, ran.stderr) == (0, ''), ran
        assert ran.stdout.startswith("cefrodild: a cache server that speaks memcached's text protocol\n"), ran
        assert all(name in ran.stdout for name in ['--port=', '--threads=', '--version']), ran
    for word in ['-V', '--version']:
        ran = run(program, word)
        assert (ran.returncode, ran.stderr) == (0, '') and re.fullmatch(r'cefrodild \d+\.\d+\.\d+\n', ran.stdout), ran
    with running(program) as (_, port), connect(port) as client:
        own = ran.stdout.split()[1]
        assert ask(client, b'version\r\n') == b'VERSION 1.6.18\r\n'
        told = ask(client, b'stats\r\n', END).decode().split('\r\n')
        assert 'STAT version 1.6.18' in told and f'STAT cefrodild {own}' in told, told


def faults(program):
    """An error names what it is about, and is all that is said."""
    with socket.create_server(('127.0.0.1', 0)) as taken:
        port = str(taken.getsockname()[1])
        for words, status, named in [
            (['-x'], 2, "'-x'"),
            (['-p'], 2, '-p'),
            (['-t', '0'], 2, '-t'),
            (['-n', '1000000'], 2, '-n'),
            ([b'\xff'], 2, 'is no text'),
            (['-p', port], 1, f'127.0.0.1:{port}'),
            (['-l', '192.0.2.1', '-p', '0'], 1, '192.0.2.1:0'),
            (['--audit', '/no/such/file', '-p', '0'], 1, '/no/such/file'),
        ]:
            ran = run(program, *words)
            assert (ran.returncode, ran.stdout, ran.stderr.count('\n')) == (status, '', 1), (words, ran)
            assert ran.stderr.startswith('cefrodild: ') and named in ran.stderr, (words, ran)


def has_version_6():
    """Whether the system has the addresses of IP version 6."""
    with contextlib.suppress(OSError), socket.socket(socket.AF_INET6) as probe:
        probe.bind(('::1', 0))
        return True
    return False


def addresses(program):
    """The line that it prints has the address at which it listens, and so has `stats conns`. It listens at no other."""
    known = [('127.0.0.2', '127.0.0.2'), ('0.0.0.0', '0.0.0.0')] + [('::1', '[::1]')] * has_version_6()
    for address, shown in known:
        server = subprocess.Popen([program, *USER, '-l', address, '-p', '0'], stdout=subprocess.PIPE, text=True)
        try:
            begin, _, port = server.stdout.readline().rstrip().rpartition(':')
            assert begin == f'cefrodild: listening on {shown}', begin
            with socket.create_connection(('127.0.0.3' if address == '0.0.0.0' else address, int(port)), 10) as client:
                assert ask(client, b'mn\r\n') == b'MN\r\n'
                kind = 'tcp6' if ':' in address else 'tcp'
                conns = ask(client, b'stats conns\r\n', END).decode()
                assert re.search(rf'STAT \d+:addr {kind}:{re.escape(shown)}:{port}\r\n', conns), conns
            if address != '0.0.0.0':
                with contextlib.suppress(ConnectionRefusedError), connect(int(port)):
                    raise AssertionError(f'it listens on 127.0.0.1, too, and not only on {address}')
        finally:
            server.kill()
            server.communicate()


def idle_options(program):
    """Options of memcached that change nothing here are taken, and the server says so."""
    with running(program, '-R', '20', '-k', '-b', '1024', '-o', 'modern,hashpower=20', stderr=subprocess.PIPE) as (server, _):
        server.terminate()
        told = server.communicate(timeout=10)[1]
    names = ['-R', '-k', '-b', '-o modern', '-o hashpower']
    assert told == ''.join(f'cefrodild: {name} changes nothing here\n' for name in names), told


def no_room(program):
    """Nothing of the memory limit is left for items: here the file of users takes more."""
    with tempfile.NamedTemporaryFile() as file:
        file.write(b'u:%s\n' % (b'p' * (1 << 20)) * 24)
        file.flush()
        ran = run(program, '-m', '16', '-Y', file.name, '-p', '0')
    assert (ran.returncode, ran.stdout) == (1, '') and 'takes all of the memory limit' in ran.stderr, ran


def full_audit(program):
    """A log that could not be written to its end is an error."""
    with running(program, '--audit', '/dev/full', stderr=subprocess.PIPE) as (server, port), connect(port) as client:
        assert ask(client, b'set a 0 0 1\r\nx\r\n') == b'STORED\r\n'
        server.terminate()
        told = server.communicate(timeout=10)[1]
        assert server.returncode == 1 and told.startswith('cefrodild: ') and 'No space left' in told, told


def ends(program):
    """A server that nobody asks for anything ends at once, in silence, at either signal. Others leave it running."""
    times = []
    for number in [signal.SIGTERM, signal.SIGINT]:
        with running(program, stderr=subprocess.PIPE) as (server, port), connect(port) as idle:
            server.send_signal(signal.SIGWINCH)
            assert ask(idle, b'mn\r\n') == b'MN\r\n'
            begun = time.monotonic()
            server.send_signal(number)
            assert rest(idle) == b''
            assert (server.wait(5), server.stderr.read(), server.stdout.read()) == (0, '', '')
            times.append(time.monotonic() - begun)
            with contextlib.suppress(ConnectionRefusedError), connect(port):
                raise AssertionError('something listens at its port')
    # Clients that have begun a command would have two seconds.
    assert min(times) < 2, times


def sockets_of_polls(server):
    """How many sockets each of its threads waits for, in order: the main thread for one, and each worker for its clients."""
    folder, counts = f'/proc/{server.pid}', []
    for number in os.listdir(f'{folder}/fdinfo'):
        with open(f'{folder}/fdinfo/{number}', encoding='ascii') as file:
            files = re.findall(r'^tfd: *(\d+)', file.read(), re.MULTILINE)
        if files:
            counts.append(sum(os.readlink(f'{folder}/fd/{file}').startswith('socket:') for file in files))
    return sorted(counts)


def threads(program):
    """Each worker has a name, by which the system's tools show it. Clients are handed to the workers in turn."""
    with running(program, '-t', '3') as (server, port), contextlib.ExitStack() as stack:
        clients = [stack.enter_context(connect(port)) for _ in range(6)]
        assert all(ask(client, b'mn\r\n') == b'MN\r\n' for client in clients)
        assert sockets_of_polls(server) == [1, 2, 2, 2], sockets_of_polls(server)
        folder, names = f'/proc/{server.pid}/task', []
        for number in os.listdir(folder):
            with open(f'{folder}/{number}/comm', encoding='ascii') as file:
                names.append(file.read().rstrip())
        assert sorted(names) == sorted([os.path.basename(program)[:15], 'worker 0', 'worker 1', 'worker 2']), names


def main():
    tests = [questions, faults, addresses, idle_options, no_room, full_audit, ends, threads]
    for test in tests:
        test(sys.argv[1])
    print(f'told: {len(tests)} tests: ok')


if __name__ == '__main__':
    main()
