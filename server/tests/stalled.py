#!/usr/bin/env python3
"""Clients that stall, and what an operator sees of them: others are served, large values are not copied for late readers, the log names who is cut off.
And memory that the system refuses.

usage: stalled.py CEFRODILD
"""
import contextlib
import os
import re
import resource
import socket
import subprocess
import sys
import time

from running import TIMEOUT, ask, connect, memory_of, rest, running, stats

END = b'END\r\n'
STORED = b'STORED\r\n'
TOOL = '/usr/share/memcached/scripts/memcached-tool'
VALUE = b'v' * 1_000_000


def narrow(stack, port):
    """A client for whom the system keeps few bytes."""
    client = stack.enter_context(socket.socket())
    client.setsockopt(socket.SOL_SOCKET, socket.SO_RCVBUF, 4096)
    client.settimeout(TIMEOUT)
    client.connect(('127.0.0.1', port))
    return client


def ask_in_parts(port, *parts):
    with connect(port) as client:
        for part in parts[:-1]:
            client.sendall(part)
            time.sleep(0.005)
        return ask(client, parts[-1])


def others_are_served(port):
    for _ in range(5):
        assert ask_in_parts(port, b'set h 0 0 5000\r\n' + VALUE[:2000], VALUE[:3000] + b'\r\n') == STORED
        assert ask_in_parts(port, b'get no', b'ne\r\n') == END
        assert ask_in_parts(port, b'set h 0 0 100000\r\n', *[VALUE[:10_000]] * 10, b'\r\n') == STORED


def clients_that_stall(program):
    """Those that send values and don't end hold half of -m, but others are served: who holds most for longest has its value refused, and the log says who."""
    with running(program, '-m', '16', '-c', '300', stderr=subprocess.PIPE) as (server, port), contextlib.ExitStack() as stack, connect(port) as other:
        assert ask(other, b'set big 0 0 1000000\r\n' + VALUE + b'\r\n') == STORED
        for _ in range(20):
            narrow(stack, port).sendall(b'get big\r\n' * 6)
        addresses = []
        for part in [990_000] * 12 + [100_000] * 10 + [10_000] * 10 + [1_000] * 10 + [100] * 10:
            client = stack.enter_context(connect(port))
            client.sendall(b'set u 0 0 1000000\r\n' + VALUE[:part])
            addresses.append('{}:{}'.format(*client.getsockname()))
        time.sleep(0.5)
        others_are_served(port)
        found = stats(other)
        assert found['connections_out_of_memory'] == 0 and found['curr_connections'] >= 73 and found['store_no_memory'] > 3, found
        server.terminate()
        named = re.findall(r'cefrodild: (\S+) has its value refused, which it has not sent to the end: \d+ bytes for', server.stderr.read())
        assert named and set(named) <= set(addresses[:12]), (named, addresses)


def late_readers(program):
    """What they are sent is the item itself. No one is cut off, and the process grows little."""
    answer = b'VALUE big 0 1000000\r\n' + VALUE + b'\r\n' + END
    with running(program, '-m', '16') as (server, port), contextlib.ExitStack() as stack, connect(port) as other:
        assert ask(other, b'set big 0 0 1000000\r\n' + VALUE + b'\r\n') == STORED
        before, clients = memory_of(server), [narrow(stack, port) for _ in range(15)]
        for client in clients:
            client.sendall(b'get big\r\n' * 5 + b'quit\r\n')
        time.sleep(1)
        assert memory_of(server) - before < 4_000_000, memory_of(server) - before
        for client in clients:
            client.setsockopt(socket.SOL_SOCKET, socket.SO_RCVBUF, 1 << 20)
            assert rest(client) == 5 * answer


def silent_clients(program):
    with running(program, '-o', 'idle_timeout=1', '-t', '2') as (_, port), contextlib.ExitStack() as stack, connect(port) as other:
        silent = [stack.enter_context(connect(port)) for _ in range(4)]
        silent[0].sendall(b'set k 0 0 100\r\nhalf')
        silent[1].sendall(b'ge')
        assert ask(silent[2], b'mn\r\n') == b'MN\r\n'
        for _ in range(60):
            assert ask(other, b'mn\r\n') == b'MN\r\n'
            time.sleep(0.05)
        assert all(rest(client) == b'' for client in silent)
        assert stats(other)['idle_kicks'] == 4 and stats(other)['curr_connections'] == 1, stats(other)
        # The listening socket has been silent since the server started, and this client has not.
        times = re.findall(r':secs_since_last_cmd (\d+)\r\n', ask(other, b'stats conns\r\n', END).decode())
        assert len(times) == 2 and int(times[0]) > 2 > int(times[1]), times


def a_silent_client_has_its_time(program):
    with running(program, '-o', 'idle_timeout=1') as (_, port):
        while not has_its_second(port):
            pass


def has_its_second(port):
    """Whether a client has its second after a command. On a busy machine the command may come too late, which says nothing."""
    with connect(port) as client:
        # A second of the server's may end soon after the command.
        time.sleep(0.5)
        begin = time.monotonic()
        try:
            if ask(client, b'mn\r\n') != b'MN\r\n':
                return False
        except ConnectionError:
            return False
        assert rest(client) == b'' and time.monotonic() - begin > 1
    return True


def tools(program):
    """What memcached's own tool asks for has an end."""
    with running(program, '-t', '2') as (_, port), connect(port) as client:
        assert ask(client, b'set a%20b 5 0 3\r\nabc\r\nset c 0 0 2\r\nde\r\n', STORED * 2) == STORED * 2
        conns = ask(client, b'stats conns\r\n', END).decode()
        own = '{}:{}'.format(*client.getsockname())
        number = re.search(rf'STAT (\d+):addr tcp:{own}\r\n', conns).group(1)
        lines = [f'STAT {number}:listen_addr tcp:127.0.0.1:{port}\r\n', f'STAT {number}:state conn_read\r\n', 'state conn_listening\r\n']
        assert all(line in conns for line in lines), conns
        if not os.path.exists(TOOL):
            return
        said = {}
        for mode in ['dump', 'keys', 'sizes', 'display', 'stats', 'settings']:
            ran = subprocess.run([TOOL, f'127.0.0.1:{port}', mode], capture_output=True, text=True, timeout=TIMEOUT, check=True)
            said[mode] = ran.stdout
        assert sorted(said['dump'].split('add ')[1:]) == ['a%20b 5 0 3\nabc\n', 'c 0 0 2\nde\n'], said['dump']
        assert 'sizes_status' in said['sizes'] and said['keys'].count('key=') == 2 and len(said['display'].splitlines()) == 2, said


def states(program):
    """What each client waits for, in memcached's words."""
    sent = [
        (b'', 'conn_read'),
        (b'set a 0 0 10\r\n12345', 'conn_nread'),
        (b'set a 0 0 2000000\r\n12345', 'conn_swallow'),
        (b'get k\r\n' * 50, 'conn_mwrite'),
    ]
    with running(program) as (_, port), connect(port) as other, contextlib.ExitStack() as stack:
        assert ask(other, b'set k 0 0 %d\r\n%s\r\n' % (len(VALUE), VALUE)) == STORED
        expected = {}
        for data, state in sent:
            client = narrow(stack, port)
            client.sendall(data)
            expected[client.getsockname()[1]] = state
        shown, end = {}, time.monotonic() + TIMEOUT
        while shown != expected and time.monotonic() < end:
            conns = ask(other, b'stats conns\r\n', END).decode()
            numbers = {number: int(own) for number, own in re.findall(r'STAT (\d+):addr tcp:127.0.0.1:(\d+)\r\n', conns)}
            known = {numbers[number]: state for number, state in re.findall(r'STAT (\d+):state (\w+)\r\n', conns) if number in numbers}
            shown = {own: known.get(own) for own in expected}
        assert shown == expected, (shown, expected)


def shown_commands(program):
    with running(program, '-vv', stderr=subprocess.PIPE) as (server, port), connect(port) as client:
        # The block comes later than its line.
        assert ask(client, b'mn\r\nset a 1 2 3\r\n') == b'MN\r\n'
        ask(client, b'abc\r\nset b 1 2 3\r\nabc\r\nget \xff\r\n', END)
        server.terminate()
        shown = server.stderr.read().splitlines()
    assert [line.split(' ', 1)[1] for line in shown] == ['mn', 'set a 1 2 3', 'set b 1 2 3', r'get \xff'] and shown[0].startswith('<'), shown


def root(program):
    if os.geteuid() == 0:
        ran = subprocess.run([program, '-p', '0'], capture_output=True, text=True, timeout=TIMEOUT, check=False)
        assert (ran.returncode, ran.stdout) == (1, '') and '-u' in ran.stderr, ran


def stored_within(program, kilobytes):
    """How many of 300 values are stored in so many addresses, and what the server says of that at the start."""
    limit = lambda: resource.setrlimit(resource.RLIMIT_AS, (kilobytes * 1024, kilobytes * 1024))
    with running(program, '-m', '64', '-t', '2', before=limit, stderr=subprocess.PIPE) as (server, port), connect(port) as client:
        stored = 0
        for key in range(300):
            size = [100, 5_000, 60_000, 900_000][key % 4]
            answer = ask(client, b'set k%d 0 0 %d\r\n%s\r\n' % (key, size, VALUE[:size]))
            assert answer in (STORED, b'SERVER_ERROR out of memory storing object\r\n'), answer
            stored += answer == STORED
        assert server.poll() is None
        server.terminate()
        return stored, server.stderr.read()


def memory_is_refused(program):
    """The system gives the process fewer addresses than -m needs. The server says how many it needs. With so many it stores all."""
    for kilobytes in [60_000, 150_000, 200_000]:
        stored, told = stored_within(program, kilobytes)
        found = re.match(rf'cefrodild: the server needs (\d+) KB of addresses, and {kilobytes} are allowed: ', told)
        assert stored > 150 and found, (stored, told)
    assert stored_within(program, int(found[1])) == (300, '')


def main():
    tests = [clients_that_stall, late_readers, silent_clients, a_silent_client_has_its_time, tools, states, shown_commands, root, memory_is_refused]
    for test in tests:
        if len(sys.argv) < 3 or test.__name__ in sys.argv[2:]:
            test(sys.argv[1])
    print(f'stalled: {len(tests)} tests: ok')


if __name__ == '__main__':
    main()
