#!/usr/bin/env python3
"""TLS (-Z): real clients, and those whose certificate or bytes are wrong.

usage: tls.py CEFRODILD     CEFRODILD: with the feature `tls`

It needs openssl, and of Debian python3-pymemcache.
"""
import contextlib
import os
import signal
import socket
import ssl
import subprocess
import sys
import tempfile
import time

from running import TIMEOUT, USER, ask, connect, rest, running, stats

LARGE = b'0123456789abcdef' * 60_000
PYMEMCACHE = '''
import ssl, sys
from pymemcache.client.base import Client
authority, port = sys.argv[1], int(sys.argv[2])
client = Client(('localhost', port), tls_context=ssl.create_default_context(cafile=authority), timeout=10)
assert client.set('key', b'value' * 100_000, noreply=False) and client.get('key') == b'value' * 100_000
assert client.set_many({f'key{number}': str(number) for number in range(1000)}, noreply=False) == []
assert client.get_many([f'key{number}' for number in range(1000)]) == {f'key{number}': str(number).encode() for number in range(1000)}
client.quit()
'''


def openssl(folder, *words, **more):
    return subprocess.run(['openssl', *words], cwd=folder, check=True, capture_output=True, timeout=TIMEOUT, **more)


def make_certificates(folder):
    """Two authorities; of the first one the server's certificate and a client's, and of the second one another client's."""
    with open(f'{folder}/names', 'w', encoding='ascii') as file:
        file.write('subjectAltName=DNS:localhost,IP:127.0.0.1\n')
    key = ['-newkey', 'ec', '-pkeyopt', 'ec_paramgen_curve:prime256v1', '-nodes']
    for name in ['first', 'second']:
        openssl(folder, 'req', '-x509', *key, '-keyout', f'{name}.key', '-out', f'{name}.pem', '-subj', f'/CN={name}', '-days', '2')
    for name, authority in [('server', 'first'), ('client', 'first'), ('stranger', 'second')]:
        openssl(folder, 'req', *key, '-keyout', f'{name}.key', '-out', f'{name}.csr', '-subj', f'/CN={name}')
        signed = ['-CA', f'{authority}.pem', '-CAkey', f'{authority}.key', '-CAcreateserial', '-days', '2', '-extfile', 'names']
        openssl(folder, 'x509', '-req', '-in', f'{name}.csr', '-out', f'{name}.pem', *signed)


def options(folder, *more):
    return ['-Z', '-o', ','.join([f'ssl_chain_cert={folder}/server.pem', f'ssl_key={folder}/server.key', *more])]


def context_of(folder, own=None):
    context = ssl.create_default_context(cafile=f'{folder}/first.pem')
    if own:
        context.load_cert_chain(f'{folder}/{own}.pem', f'{folder}/{own}.key')
    return context


def secured(context, port, **more):
    # Python would take an end without a word for a right one.
    return context.wrap_socket(connect(port), server_hostname='localhost', suppress_ragged_eofs=False, **more)


def is_served(context, port):
    with secured(context, port) as client:
        return ask(client, b'mn\r\n') == b'MN\r\n'


def s_client(folder, port):
    """openssl's own client: it checks the certificate, and ends with an error if the server's end is no right one."""
    words = ['s_client', '-connect', f'127.0.0.1:{port}', '-CAfile', 'first.pem', '-verify_return_error', '-quiet', '-ign_eof']
    said = openssl(folder, *words, input=b'set key 0 0 5\r\nvalue\r\nget key\r\nquit\r\n').stdout
    assert said == b'STORED\r\nVALUE key 0 5\r\nvalue\r\nEND\r\n', said


def values(folder, port):
    """Large values, many commands at once, single bytes, and a client that reads late."""
    with secured(context_of(folder), port) as client:
        assert ask(client, b'set large 0 0 %d\r\n%s\r\n' % (len(LARGE), LARGE)) == b'STORED\r\n'
        answer = b'VALUE large 0 %d\r\n%s\r\nEND\r\n' % (len(LARGE), LARGE)
        # Each answer waits in the server, since nobody reads yet.
        client.sendall(b'get large\r\n' * 6 + b'quit\r\n')
        time.sleep(0.2)
        assert rest(client) == 6 * answer
    with secured(context_of(folder), port) as client:
        assert ask(client, b'set key 0 0 1\r\n5\r\n' * 3000 + b'mn\r\n', b'MN\r\n') == b'STORED\r\n' * 3000 + b'MN\r\n'
        for byte in b'set key 0 0 4\r\n1\r\n2\r\nget key':
            client.sendall(bytes([byte]))
        assert ask(client, b'\r\n', b'END\r\n') == b'STORED\r\nVALUE key 0 4\r\n1\r\n2\r\nEND\r\n'


def resumed(context, port):
    """A client resumes its session, whether or not it has a certificate."""
    with secured(context, port) as client:
        assert ask(client, b'mn\r\n') == b'MN\r\n'
        session = client.session
    with secured(context, port, session=session) as client:
        assert ask(client, b'mn\r\n') == b'MN\r\n' and client.session_reused


def ends(client, data=b''):
    """Whether the server ends the connection of a client that sends this."""
    with contextlib.suppress(ConnectionError, ssl.SSLError):
        client.sendall(data)
        return b'STORED' not in rest(client)
    return True


def refuses(context, port):
    """Whether the server refuses this client. With TLS 1.3 it hears so when it reads."""
    try:
        with secured(context, port) as client:
            return ask(client, b'mn\r\n') != b'MN\r\n'
    except (ssl.SSLError, ConnectionError):
        return True


def wrong(folder, port):
    """Each is cut off, and nobody else is."""
    context = context_of(folder)
    with secured(context, port) as beside:
        assert ask(beside, b'set beside 0 0 1\r\n5\r\n') == b'STORED\r\n'
        hello = ssl.MemoryBIO()
        with contextlib.suppress(ssl.SSLWantReadError):
            context.wrap_bio(ssl.MemoryBIO(), hello, server_hostname='localhost').do_handshake()
        hello = hello.read()
        for data in [b'get key\r\n', b'set key 0 0 1\r\n5\r\n', b'\x16\x03\x01\xff\xff' + b'x' * 99, b'\x80' * 300, hello + b'get key\r\n', b'GET / HTTP/1.1\r\n\r\n']:
            with connect(port) as client:
                assert ends(client, data), data
        for part in [b'', hello[:5], hello[:-1], hello]:
            with connect(port) as client:
                client.sendall(part)
        # A record that is no record, behind the handshake.
        client = secured(context, port)
        with socket.socket(fileno=os.dup(client.fileno())) as plain:
            plain.settimeout(TIMEOUT)
            assert ask(client, b'mn\r\n') == b'MN\r\n' and ends(plain, b'set key 0 0 1\r\n5\r\n')
        client.close()
        other = ssl.create_default_context(cafile=f'{folder}/second.pem')
        assert refuses(other, port), 'a client that does not trust the server'
        assert ask(beside, b'get beside\r\n', b'END\r\n') == b'VALUE beside 0 1\r\n5\r\nEND\r\n'
        assert stats(beside)['curr_connections'] <= 4 and is_served(context, port)


def leaves(folder, port):
    """A client that leaves without a word of TLS is no news, and what it has sent is done."""
    client = secured(context_of(folder), port)
    assert ask(client, b'set left 0 0 1\r\n5\r\nmn\r\n', b'MN\r\n') == b'STORED\r\nMN\r\n'
    with socket.socket(fileno=client.detach()) as plain:
        plain.settimeout(TIMEOUT)
        plain.shutdown(socket.SHUT_WR)
        rest(plain)
    with secured(context_of(folder), port) as client:
        assert ask(client, b'get left\r\n', b'END\r\n') == b'VALUE left 0 1\r\n5\r\nEND\r\n'


def silent(folder, port):
    """Clients that stop within the handshake keep nobody waiting."""
    with contextlib.ExitStack() as stack:
        for _ in range(200):
            stack.enter_context(connect(port)).sendall(b'\x16\x03\x01\x02')
        assert all(is_served(context_of(folder), port) for _ in range(20))


def authorities(folder, port):
    """Whose certificates of clients the server takes, as it says. A client that has several chooses by that."""
    said = openssl(folder, 's_client', '-connect', f'127.0.0.1:{port}', '-CAfile', 'first.pem', input=b'').stdout
    return said.partition(b'Acceptable client certificate CA names\n')[2].partition(b'\n')[0].replace(b' ', b'')


def certificates_of_clients(program, folder):
    for mode, without in [(0, False), (1, False), (2, True), (3, True)]:
        with running(program, *options(folder, f'ssl_verify_mode={mode}', f'ssl_ca_cert={folder}/first.pem'), stderr=subprocess.DEVNULL) as (_, port):
            assert refuses(context_of(folder), port) == without, mode
            assert refuses(context_of(folder, 'stranger'), port) == (mode > 0), mode
            assert not refuses(context_of(folder, 'client'), port), mode
            context = context_of(folder, 'client')
            context.maximum_version = ssl.TLSVersion.TLSv1_2
            resumed(context, port)
            assert mode != 1 or authorities(folder, port) == b'CN=first'


def ends_of_the_server(program, folder):
    """What clients have sent is answered before it ends, and they see that nothing is cut off."""
    with running(program, *options(folder), '-c', '2', stderr=subprocess.DEVNULL) as (server, port):
        with secured(context_of(folder), port) as client, secured(context_of(folder), port) as other:
            assert ask(client, b'mn\r\n') == ask(other, b'mn\r\n') == b'MN\r\n'
            with connect(port) as third:
                assert ends(third), 'there are too many'
            client.sendall(b'get key\r\n')
            server.send_signal(signal.SIGTERM)
            assert rest(client) == b'END\r\n' and rest(other) == b''
        assert server.wait(TIMEOUT) == 0


def faults(program, folder):
    """The file that is wrong is named."""
    with open(f'{folder}/empty', 'w', encoding='ascii'):
        pass
    for replaced, by in [('server.pem', 'no'), ('server.key', 'no'), ('server.pem', 'empty'), ('server.key', 'first.key'), ('ca', 'no'), ('ca', 'empty')]:
        words = options(folder, *([f'ssl_ca_cert={folder}/ca'] if replaced == 'ca' else []))
        words[-1] = words[-1].replace(f'{folder}/{replaced}', f'{folder}/{by}')
        ran = subprocess.run([program, *USER, '-p', '0', *words], capture_output=True, text=True, timeout=TIMEOUT, check=False)
        assert (ran.returncode, ran.stdout, ran.stderr.count('\n')) == (1, '', 1) and f'{folder}/{by}' in ran.stderr, (words, ran)


def main():
    program = os.path.abspath(sys.argv[1])
    with tempfile.TemporaryDirectory(prefix='tls-') as folder:
        make_certificates(folder)
        faults(program, folder)
        with running(program, *options(folder), '-t', '2', stderr=subprocess.PIPE) as (server, port):
            s_client(folder, port)
            values(folder, port)
            resumed(context_of(folder), port)
            subprocess.run(['/usr/bin/python3', '-c', PYMEMCACHE, f'{folder}/first.pem', str(port)], check=True, timeout=60)
            wrong(folder, port)
            leaves(folder, port)
            silent(folder, port)
            server.terminate()
            said = server.stderr.read()
            assert server.wait(TIMEOUT) == 0 and 'is cut off: ' in said and 'http request' in said and 'eof' not in said, said
        certificates_of_clients(program, folder)
        ends_of_the_server(program, folder)
    print('tls: openssl, Python and pymemcache are served, and those that are wrong are cut off')


if __name__ == '__main__':
    main()
