#!/usr/bin/env python3
"""What the server meets where it runs: web browsers, clients of the binary protocol, signals, limits of open files, an output that is full.

usage: operated.py CEFRODILD
"""
import contextlib
import os
import resource
import signal
import socket
import subprocess
import sys

from running import TIMEOUT, USER, ask, connect, memory_of, rest, running, stats

END = b'END\r\n'


def answered(port, data):
    """What a client is answered that sends this and no more."""
    with connect(port) as client:
        client.sendall(data)
        client.shutdown(socket.SHUT_WR)
        return rest(client)


def web_pages(port):
    """A browser's request ends the connection before the commands in its body."""
    assert answered(port, b'set kept 0 0 1\r\nx\r\n') == b'STORED\r\n'
    for line in [b'GET / HTTP/1.1', b'POST /a b HTTP/1.0', b'HTTP/1.1', b'one two three HTTP/']:
        assert answered(port, line + b'\r\nHost: localhost\r\n\r\nflush_all\r\n') == b'', line
    # Other lines with that word are commands, as they are to memcached.
    invalid = b'CLIENT_ERROR invalid exptime argument\r\n'
    for line, answer in [
        (b'get HTTP/1.1', END),
        (b'touch kept HTTP/1.1', invalid),
        (b'GET / HTTP/1.1 x', b'ERROR\r\n'),
        (b'GET / http/1.1', b'ERROR\r\n'),
        (b'GET /HTTP/1.1', b'ERROR\r\n'),
    ]:
        assert answered(port, line + b'\r\nget kept\r\n') == answer + b'VALUE kept 0 1\r\nx\r\nEND\r\n', line


def binary_clients(port):
    """Such a client would wait for ever. Its first byte is no letter."""
    assert answered(port, b'\x80' + bytes(23)) == b''
    assert answered(port, b'\x80\r\nget kept\r\n') == b''
    assert answered(port, b'get a\r\n\x80\r\nget a\r\n') == END + b'ERROR\r\n' + END


def signals(program):
    with running(program) as (server, port), connect(port) as client:
        for idle in [signal.SIGHUP, signal.SIGUSR2]:
            server.send_signal(idle)
            assert ask(client, b'mn\r\n') == b'MN\r\n', idle
        client.sendall(b'mn\r\n' * 1000)
        server.send_signal(signal.SIGUSR1)
        assert rest(client) == b'MN\r\n' * 1000
        assert server.wait(TIMEOUT) == 0


@contextlib.contextmanager
def full_pipe():
    """The end of a pipe that takes no more, and that nobody reads."""
    reader, writer = os.pipe()
    os.set_blocking(writer, False)
    with contextlib.suppress(BlockingIOError):
        while True:
            os.write(writer, bytes(4096))
    os.set_blocking(writer, True)
    try:
        yield writer
    finally:
        os.close(reader)
        os.close(writer)


def free_port():
    with socket.create_server(('127.0.0.1', 0)) as free:
        return free.getsockname()[1]


def full_output(program):
    """Nobody reads where the server listens: it goes on. A question has failed then."""
    with open('/dev/full', 'w', encoding='ascii') as full, full_pipe() as pipe:
        for word in ['--help', '--version']:
            ran = subprocess.run([program, *USER, word], stdout=full, stderr=subprocess.PIPE, text=True, timeout=TIMEOUT, check=False)
            assert ran.returncode == 1 and ran.stderr.startswith('cefrodild: standard output: '), ran
        for output in [full, pipe]:
            port = free_port()
            server = subprocess.Popen([program, *USER, '-p', str(port)], stdout=output)
            try:
                with connect_at_last(server, port) as client:
                    assert ask(client, b'mn\r\n') == b'MN\r\n'
            finally:
                server.kill()
                server.wait()


def full_log(program):
    """Nobody reads the log, which is a full pipe: lines are left out. The server goes on, and ends when it is to."""
    with full_pipe() as log, running(program, '-c', '1', '-vv', stderr=log) as (server, port):
        with connect(port) as client:
            assert ask(client, b'mn\r\n') == b'MN\r\n'
            with connect(port) as late:
                assert rest(late) == b'ERROR Too many open connections\r\n'
            server.terminate()
            assert rest(client) == b'' and server.wait(TIMEOUT) == 0


def repeated_lines(program):
    """What happens again and again is told once a minute, and counted each time."""
    with running(program, '-c', '1', stderr=subprocess.PIPE) as (server, port):
        with connect(port) as client:
            assert ask(client, b'mn\r\n') == b'MN\r\n'
            for _ in range(5):
                with connect(port) as late:
                    assert rest(late) == b'ERROR Too many open connections\r\n'
            counts = stats(client)
            assert (counts['rejected_connections'], counts['total_connections'], counts['curr_connections']) == (5, 1, 1), counts
        server.terminate()
        told = server.communicate(timeout=TIMEOUT)[1]
        assert told == 'cefrodild: clients are turned away: 1 are connected (-c)\n', told


def connect_at_last(server, port):
    while True:
        with contextlib.suppress(ConnectionRefusedError):
            return connect(port)
        assert server.poll() is None, server.returncode


def limited(soft, hard):
    """Sets the limits of open files in the process that starts."""
    return lambda: resource.setrlimit(resource.RLIMIT_NOFILE, (soft, hard))


def open_files(program):
    """The limit is raised, as far as that is allowed. The workers need some files, too."""
    with running(program, '-c', '300', '-t', '64', before=limited(64, 1000)) as (_, port), contextlib.ExitStack() as stack:
        clients = [stack.enter_context(connect(port)) for _ in range(300)]
        assert all(ask(client, b'mn\r\n') == b'MN\r\n' for client in clients)
    ran = subprocess.run([program, *USER, '-p', '0', '-c', '300'], preexec_fn=limited(64, 300), capture_output=True, text=True, timeout=TIMEOUT, check=False)
    assert (ran.returncode, ran.stdout) == (1, '') and '300 are allowed: choose a smaller -c' in ran.stderr, ran


def idle_clients(program):
    """A client that waits costs little, whatever it has sent and was sent before."""
    value, count = b'v' * 200_000, 600
    with running(program, '-c', '700', '-t', '2') as (server, port), contextlib.ExitStack() as stack:
        clients = [stack.enter_context(connect(port)) for _ in range(count)]
        before = memory_of(server)
        for client in clients:
            assert ask(client, b'set k 0 0 %d\r\n%s\r\n' % (len(value), value)) == b'STORED\r\n'
            assert ask(client, b'get k\r\n', END).startswith(b'VALUE k 0 200000\r\n')
        assert memory_of(server) - before < 4 * len(value) + count * 4096, memory_of(server) - before


def main():
    program = sys.argv[1]
    with running(program) as (_, port):
        web_pages(port)
        binary_clients(port)
    for test in [signals, full_output, full_log, repeated_lines, open_files, idle_clients]:
        test(program)


if __name__ == '__main__':
    main()
