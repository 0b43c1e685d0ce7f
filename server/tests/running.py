"""A running cefrodild, for the tests in Python."""
import contextlib
import os
import socket
import subprocess

TIMEOUT = 10
# Root must say whose process the server is to become.
USER = ['-u', 'root'] if os.geteuid() == 0 else []


def start(program, *options, port=0, stderr=None, before=None):
    """Starts the server: its process and its port. `before` is called in the process first."""
    server = subprocess.Popen([program, *USER, '-p', str(port), *options], stdout=subprocess.PIPE, stderr=stderr, text=True, preexec_fn=before)
    line = server.stdout.readline()
    if not line.startswith('cefrodild: listening on 127.0.0.1:'):
        server.kill()
        raise SystemExit(f'cefrodild says {line!r}')
    return server, int(line.rpartition(':')[2])


def stop(process):
    process.kill()
    process.wait()


@contextlib.contextmanager
def running(program, *options, stderr=None, before=None):
    """The process and the port of a server, which is killed in the end."""
    server, port = start(program, *options, stderr=stderr, before=before)
    try:
        yield server, port
    finally:
        stop(server)


def memory_of(server):
    """How many bytes the process takes."""
    with open(f'/proc/{server.pid}/statm', encoding='ascii') as file:
        return int(file.read().split()[1]) * os.sysconf('SC_PAGESIZE')


def connect(port):
    return socket.create_connection(('127.0.0.1', port), TIMEOUT)


def rest(client):
    """What the client is answered until the connection ends."""
    answer = b''
    while part := client.recv(1 << 20):
        answer += part
    return answer


def ask(client, data, end=b'\r\n'):
    """Sends this, and returns what is answered up to this end."""
    client.sendall(data)
    answer = b''
    while not answer.endswith(end):
        part = client.recv(1 << 16)
        if not part:
            return answer + b'<end>'
        answer += part
    return answer


def stats(client):
    """The numbers of what `stats` answers, by their names."""
    lines = ask(client, b'stats\r\n', b'END\r\n').decode().splitlines()[:-1]
    return {name: int(value) for _, name, value in map(str.split, lines) if value.isdigit()}
