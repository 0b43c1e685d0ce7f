#!/usr/bin/env python3
"""Two servers behind twemproxy (nutcracker) with ketama. One is killed and started again while a client goes on.

usage: proxy.py CEFRODILD

What it asks for: while both run, each key is found; while one is dead, keys of the other are still found, and no answer is the value of
another key; after it has come back, each key can be stored and found again. The exit status is 1 otherwise.
"""
import contextlib
import os
import random
import socket
import subprocess
import sys
import tempfile
import time

from running import TIMEOUT, start, stop

KEYS = [f'key:{number}' for number in range(200)]
OPTIONS = ['-t', '2', '-m', '16']
# How many seconds a server that came back may stay unnoticed.
LIMIT = 20


def free_port():
    with socket.socket() as probe:
        probe.bind(('127.0.0.1', 0))
        return probe.getsockname()[1]


def wait_for(port):
    for _ in range(1000):
        with contextlib.suppress(OSError), socket.create_connection(('127.0.0.1', port), 1):
            return
        time.sleep(0.05)
    raise SystemExit(f'proxy: nothing listens at port {port}')


class Client:
    """Connects anew when the proxy closes the connection or answers with an error."""

    def __init__(self, port):
        self.port, self.socket = port, None

    def ask(self, data):
        """The first line of the answer and, of a value, its block. None: the proxy has an error."""
        if self.socket is None:
            self.socket = socket.create_connection(('127.0.0.1', self.port), TIMEOUT)
            self.file = self.socket.makefile('rb')
        self.socket.sendall(data.encode())
        line = self.file.readline().decode().rstrip()
        if line.startswith('VALUE'):
            value = self.file.read(int(line.split()[3]) + 2).decode().rstrip()
            assert self.file.readline() == b'END\r\n'
            return value
        if line == '' or line.startswith('SERVER_ERROR'):
            self.socket.close()
            self.socket = None
            return None
        return line

    def set(self, key, value):
        return self.ask(f'set {key} 0 0 {len(value)}\r\n{value}\r\n')

    def get(self, key):
        return self.ask(f'get {key}\r\n')


def found(client, key):
    """Whether the key is found. No key may have another one's value."""
    answer = client.get(key)
    assert answer in (None, 'END') or answer.startswith(f'value of {key} '), (key, answer)
    return answer not in (None, 'END')


def go_on(client, seconds, draw):
    """A client that goes on: how many of its lookups were hits, and how many calls failed."""
    hits = failures = 0
    end = time.monotonic() + seconds
    while time.monotonic() < end:
        key = draw.choice(KEYS)
        if draw.random() < 0.2:
            failures += client.set(key, f'value of {key} {draw.random()}') != 'STORED'
        else:
            hits += found(client, key)
    return hits, failures


def wait_until_stored(client, key):
    """The proxy notices in its own time that a server is back."""
    end = time.monotonic() + LIMIT
    while client.set(key, f'value of {key} 0') != 'STORED':
        if time.monotonic() > end:
            raise SystemExit(f'proxy: {LIMIT} seconds after its server came back, {key} is not stored')
        time.sleep(0.05)


def test(program, servers, ports, client):
    draw = random.Random(1)
    assert all(client.set(key, f'value of {key} 0') == 'STORED' for key in KEYS)
    assert all(found(client, key) for key in KEYS)
    shares = [[key for key in KEYS if Client(port).get(key) != 'END'] for port in ports]
    assert sorted(sum(shares, [])) == sorted(KEYS) and all(shares), shares
    assert go_on(client, 0.5, draw)[1] == 0
    stop(servers[0])
    hits, failures = go_on(client, 1.5, draw)
    assert hits > 0 and failures > 0, (hits, failures)
    servers[0], _ = start(program, *OPTIONS, port=ports[0])
    wait_until_stored(client, shares[0][0])
    go_on(client, 0.5, draw)
    assert all(client.set(key, f'value of {key} 1') == 'STORED' for key in KEYS)
    assert all(found(client, key) for key in KEYS)
    print(f'proxy: ok: {[len(share) for share in shares]} keys; one dead: {hits} hits, {failures} failed sets; all found after it came back')


def main():
    program, processes, ports = sys.argv[1], [], []
    with tempfile.TemporaryDirectory() as folder:
        try:
            for _ in range(2):
                server, port = start(program, *OPTIONS)
                processes.append(server)
                ports.append(port)
            # The servers have theirs by now, so these are others.
            listen, stats = free_port(), free_port()
            config = os.path.join(folder, 'nutcracker.yml')
            with open(config, 'w', encoding='utf-8') as file:
                file.write(f'pool:\n  listen: 127.0.0.1:{listen}\n  hash: md5\n  distribution: ketama\n  timeout: 400\n')
                file.write('  auto_eject_hosts: false\n  server_retry_timeout: 200\n  servers:\n')
                # By these names, and not by the ports, ketama places the servers.
                file.writelines(f'   - 127.0.0.1:{port}:1 {name}\n' for port, name in zip(ports, ['one', 'two']))
            proxy = ['nutcracker', '-c', config, '-o', f'{folder}/log', '-p', f'{folder}/pid', '-a', '127.0.0.1', '-s', str(stats)]
            processes.append(subprocess.Popen(proxy, stdout=subprocess.DEVNULL, stderr=subprocess.DEVNULL))
            wait_for(listen)
            test(program, processes, ports, Client(listen))
        finally:
            for process in processes:
                stop(process)


if __name__ == '__main__':
    main()
