"""cefrodild and memcached, as the benches that compare them run them."""
import contextlib
import os
import socket
import subprocess
import sys
import time

TOP = os.path.abspath(os.path.join(os.path.dirname(os.path.abspath(__file__)), '..'))
CRATES = '/usr/share/cargo/registry'
MEMCACHED = ['memcached', '-u', 'nobody', '-l', '127.0.0.1', '-U', '0']


def built(library, folder):
    """The programs, built in this folder over this library: the server with the option that root needs, and its load."""
    with open(f'{folder}/cargo.toml', 'w', encoding='utf-8') as file:
        file.write(f'[source.crates-io]\nreplace-with = "debian"\n[source.debian]\ndirectory = "{CRATES}"\n')
    words = ['cargo', 'build', '--quiet', '--release', '--offline', '--config', f'{folder}/cargo.toml', '--bins', '--examples']
    subprocess.run(words, cwd=f'{TOP}/server', check=True,
                   env={**os.environ, 'CEFRODIL_LIB': os.path.realpath(library), 'CARGO_TARGET_DIR': f'{folder}/target'})
    user = ['-u', 'root'] if os.geteuid() == 0 else []
    return [f'{folder}/target/release/cefrodild', *user], f'{folder}/target/release/examples/load'


def asked_library(usage):
    """The folder that the bench's only argument names."""
    if len(sys.argv) != 2 or not os.path.isfile(f'{sys.argv[1]}/libcefrodil.a'):
        sys.exit(usage)
    return sys.argv[1]


def free_port():
    with socket.socket() as probe:
        probe.bind(('127.0.0.1', 0))
        return probe.getsockname()[1]


def connected(port):
    for _ in range(100):
        try:
            client = socket.create_connection(('127.0.0.1', port), 30)
            client.setsockopt(socket.IPPROTO_TCP, socket.TCP_NODELAY, 1)
            return client
        except OSError:
            time.sleep(0.05)
    sys.exit(f'nothing listens at port {port}')


@contextlib.contextmanager
def running(server, megabytes, threads):
    """The process and the port of a server that answers. It ends with the block."""
    port = free_port()
    words = [*server, '-p', str(port), '-m', str(megabytes), '-t', str(threads)]
    with subprocess.Popen(words, stdout=subprocess.DEVNULL, stderr=subprocess.DEVNULL) as process:
        try:
            connected(port).close()
            yield process.pid, port
        finally:
            process.terminate()
