#!/usr/bin/env python3
"""How the server is started as a service: with the options of Debian's /etc/memcached.conf, and at Unix sockets.

usage: service.py CEFRODILD
"""
import contextlib
import os
import pwd
import signal
import socket
import stat
import subprocess
import sys
import tempfile
import time

from running import TIMEOUT, USER, ask, running, stop

PROGRAM = sys.argv[1]


def ran(*options):
    """A start that fails, or the process that starts a daemon."""
    return subprocess.run([PROGRAM, *USER, *options], stdin=subprocess.DEVNULL, capture_output=True, text=True, timeout=TIMEOUT, check=False)


def works(client):
    assert ask(client, b'set a 0 0 1\r\nx\r\n') == b'STORED\r\n'
    assert ask(client, b'get a\r\n', b'END\r\n') == b'VALUE a 0 1\r\nx\r\nEND\r\n'


@contextlib.contextmanager
def client_of(path):
    with socket.socket(socket.AF_UNIX) as client:
        client.settimeout(TIMEOUT)
        client.connect(path)
        yield client


@contextlib.contextmanager
def listening(*options):
    """A server, and the places that it says it listens at: as many as these options have."""
    server = subprocess.Popen([PROGRAM, *USER, *options], stdout=subprocess.PIPE, text=True)
    count = sum(option.count(',') + 1 for option in options if option.startswith(('/', '127'))) or 1
    try:
        yield server, [server.stdout.readline().removeprefix('cefrodild: listening on ').rstrip('\n') for _ in range(count)]
    finally:
        stop(server)


def unix_socket(folder):
    path = f'{folder}/socket'
    # An address and a port say nothing then.
    with listening('-s', path, '-a', '660', '-p', '1') as (server, places):
        assert places == [path], places
        assert stat.S_IMODE(os.stat(path).st_mode) == 0o660
        with client_of(path) as client:
            works(client)
            conns = ask(client, b'stats conns\r\n', b'END\r\n').decode()
            assert all(f':{name} unix:{path}\r\n' in conns for name in ['addr', 'listen_addr']), conns
        again = ran('-s', path)
        assert again.returncode == 1 and path in again.stderr, again
        with client_of(path) as client:
            works(client)
        server.kill()
        server.wait()
    # What was left is replaced.
    with listening('-s', path) as (server, _):
        assert stat.S_IMODE(os.stat(path).st_mode) == 0o700
        with client_of(path) as client:
            works(client)
        server.terminate()
        assert server.wait(TIMEOUT) == 0 and not os.path.exists(path)
    socket_of_user(path)
    with open(path, 'w', encoding='ascii') as file:
        file.write('kept')
    other = ran('-s', path)
    assert other.returncode == 1 and path in other.stderr, other
    with open(path, encoding='ascii') as file:
        assert file.read() == 'kept'


def socket_of_user(path):
    """The file is that of the user whose process the server becomes."""
    if os.geteuid() == 0:
        with listening('-s', path, '-u', 'nobody') as (server, _):
            found, user = os.stat(path), pwd.getpwnam('nobody')
            assert (found.st_uid, found.st_gid, stat.S_IMODE(found.st_mode)) == (user.pw_uid, user.pw_gid, 0o700), found
            server.terminate()
            assert server.wait(TIMEOUT) == 0 and not os.path.exists(path)


def several_places():
    with listening('-p', '0', '-l', '127.0.0.1,127.0.0.2', '-l', '127.0.0.3:0') as (_, places):
        assert [place.rpartition(':')[0] for place in places] == ['127.0.0.1', '127.0.0.2', '127.0.0.3'], places
        for place in places:
            host, _, port = place.rpartition(':')
            with socket.create_connection((host, int(port)), TIMEOUT) as client:
                works(client)
    with listening('-p', '0', '-l', 'localhost') as (_, places), socket.create_connection(('localhost', int(places[0].rpartition(':')[2])), TIMEOUT) as client:
        works(client)
    for options in [('-l', 'no.such.name.invalid'), ('-l', '192.0.2.1')]:
        failed = ran(*options)
        assert failed.returncode == 1 and options[1] in failed.stderr, failed


def gone(process):
    """Waits for the end of a process that is no child of this one."""
    end = time.monotonic() + TIMEOUT
    while time.monotonic() < end:
        try:
            with open(f'/proc/{process}/stat', encoding='ascii') as file:
                if file.read().rpartition(')')[2].split()[0] == 'Z':
                    return
        except FileNotFoundError:
            return
        time.sleep(0.01)
    raise AssertionError(f'{process} goes on')


def users_of(process):
    """The numbers of its user and group, and those of its other groups."""
    with open(f'/proc/{process}/status', encoding='ascii') as file:
        lines = dict(line.split(':', 1) for line in file)
    return set(lines['Uid'].split()), set(lines['Gid'].split()), set(lines['Groups'].split())


def daemon(folder, name):
    """The lines of memcached.conf, but for `logfile`. The number of the process, or None if it does not start."""
    with socket.create_server(('127.0.0.1', 0)) as free:
        port = free.getsockname()[1]
    file = f'{folder}/number'
    options = ['-d', '-m', '64', '-p', str(port), '-u', name, '-l', '127.0.0.1', '-c', '1024', '-P', file]
    started = ran(*options)
    assert (started.returncode, started.stdout, started.stderr) == (0, f'cefrodild: listening on 127.0.0.1:{port}\n', ''), started
    with open(file, encoding='ascii') as said:
        process = int(said.read())
    try:
        assert os.readlink(f'/proc/{process}/cwd') == '/' and os.getsid(process) == process
        assert [os.readlink(f'/proc/{process}/fd/{stream}') for stream in range(3)] == ['/dev/null'] * 3
        with socket.create_connection(('127.0.0.1', port), TIMEOUT) as client:
            works(client)
        if os.geteuid() == 0:
            user = pwd.getpwnam(name)
            assert users_of(process) == ({str(user.pw_uid)}, {str(user.pw_gid)}, set(map(str, os.getgrouplist(name, user.pw_gid))))
        # The port is taken. The older server keeps its file.
        failed = ran(*options[:-1], f'{folder}/other')
        assert failed.returncode == 1 and 'listening' not in failed.stdout and f'127.0.0.1:{port}' in failed.stderr, failed
        assert os.path.exists(file) and not os.path.exists(f'{folder}/other')
    finally:
        os.kill(process, signal.SIGTERM)
        gone(process)
    assert not os.path.exists(file)


def verbose_daemon(folder):
    """Its errors stay where they went, so the operator can read them."""
    file, log = f'{folder}/number', f'{folder}/log'
    with open(log, 'w', encoding='ascii') as output:
        subprocess.run([PROGRAM, *USER, '-d', '-vv', '-p', '0', '-P', file], stdin=subprocess.DEVNULL, stdout=output, stderr=output, timeout=TIMEOUT, check=True)
    with open(file, encoding='ascii') as said:
        process = int(said.read())
    try:
        assert [os.readlink(f'/proc/{process}/fd/{stream}') for stream in range(3)] == ['/dev/null', log, log]
    finally:
        os.kill(process, signal.SIGTERM)
        gone(process)


def relative_paths(folder):
    """A daemon leaves its folder, and removes its own files there all the same."""
    files = [f'{folder}/its-number', f'{folder}/its-socket']
    words = [os.path.abspath(PROGRAM), *USER, '-d', '-P', 'its-number', '-s', 'its-socket']
    subprocess.run(words, cwd=folder, stdin=subprocess.DEVNULL, capture_output=True, timeout=TIMEOUT, check=True)
    with open(files[0], encoding='ascii') as said:
        process = int(said.read())
    try:
        with client_of(files[1]) as client:
            works(client)
    finally:
        os.kill(process, signal.SIGTERM)
        gone(process)
    assert not any(map(os.path.exists, files)), os.listdir(folder)


def users():
    unknown = ran('-p', '0', '-u', 'no-such-user')
    if os.geteuid() == 0:
        assert unknown.returncode == 1 and "there is no user 'no-such-user'" in unknown.stderr, unknown


def core_files():
    with running(PROGRAM, '-r') as (server, _):
        with open(f'/proc/{server.pid}/limits', encoding='ascii') as limits:
            soft, hard = next(line.split()[4:6] for line in limits if line.startswith('Max core file size'))
        assert soft == hard, (soft, hard)


def main():
    name = 'nobody'
    with tempfile.TemporaryDirectory() as folder:
        # For the user, too.
        os.chmod(folder, 0o777)
        unix_socket(folder)
        several_places()
        daemon(folder, name)
        verbose_daemon(folder)
        relative_paths(folder)
    users()
    core_files()


if __name__ == '__main__':
    main()
