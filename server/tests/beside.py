#!/usr/bin/env python3
"""Sends the same drawn lines to cefrodild and to memcached, and compares the answers.

Where one server's answer has a token, so must the other's, and a drawn `cas` sends each server its own. So it is with the time that is left.
Lines that the two are known to answer differently are not sent: README.md names each difference. The exit status is 1 after a difference.
"""
import argparse
import random
import re
import socket
import sys

TIMEOUT = 10
BATCH = 50
KEYS = [b'a', b'b', b'c', b'k' * 250, b'key:1', b'\xc3\xa9']
COUNTERS = [b'counter', b'n']
TOKENS = [b'0', b'1', b'30', b'-1', b'100', b'2592000', b'2592001', b'x', b'', b'noreply', b'18446744073709551615', b'99']
NUMBERS = [b'0', b'1', b'7', b'10', b'99', b'18446744073709551615', b'9999999999', b'007']
VALUES = [b'', b'1', b'10', b'99', b'0', b'x', b'12x', b' 5', b'5 ', b'18446744073709551615', b'\r\nx', b'get a\r\n', b'y' * 300, b'z' * 5000]
EXPIRIES = [b'0'] * 8 + [b'100', b'-1', b'2592000', b'2592001', b'2147483647']
VALUE_LINE = re.compile(rb'^(VALUE (\S+) \d+ (\d+)) (\d+)$')
META_NUMBER = re.compile(rb'^((?:HD|VA|NS|NF|EX|EN)\b.*?) ([ct](?=[1-9])|l)\d+')
# Of `me` the last use, the token, the class and the size are left out, and how much time is left.
DETAILS = re.compile(rb'^(ME \S+ exp=-?)(\d+) la=\d+ cas=\d+ (fetch=\w+) cls=\d+ size=\d+$')


class Peer:
    """A connection, and the last token that the server answered for each key."""

    def __init__(self, port):
        self.socket = socket.create_connection(('127.0.0.1', port), TIMEOUT)
        self.file = self.socket.makefile('rb')
        self.tokens = {}

    def ask(self, commands):
        """The answers to the commands, up to that of a `mn` that ends them. Tokens are left out."""
        data = b''.join(part if isinstance(part, bytes) else str(self.tokens.get(part, 1 << 50)).encode() for part in commands)
        self.socket.sendall(data + b'mn\r\n')
        answers = []
        while True:
            line = self.file.readline()
            if not line.endswith(b'\n'):
                raise SystemExit(f'the connection ended after {data!r}: {answers!r}')
            line = line.rstrip(b'\r\n')
            if line == b'MN':
                return answers
            answers.append(self.without_token(line))
            found = re.match(rb'^((?:VALUE \S+ \d+|VA) )(\d+)', line)
            if found:
                value = self.file.read(int(found[2]) + 2)
                # memcached may leave spaces behind a number that has become shorter.
                cut = re.sub(rb'^(\d+) +\r\n$', rb'\1\r\n', value)
                answers[-1:] = [re.sub(rb'^%s\d+' % found[1], b'%s%d' % (found[1], len(cut) - 2), answers[-1]), cut]

    def without_token(self, line):
        found = VALUE_LINE.match(line)
        if found:
            self.tokens[found[2].decode('latin1')] = int(found[4])
            return found[1] + b' TOKEN'
        details = DETAILS.match(line)
        if details:
            return b'%s%s %s' % (details[1], details[2] if len(details[2]) < 2 else b'NUMBER', details[3])
        while META_NUMBER.search(line):
            line = META_NUMBER.sub(rb'\1 \2NUMBER', line)
        return line


def noreply(draw):
    return b' noreply' if draw.random() < 0.1 else b''


def command(draw):
    """The parts of a drawn command: bytes, and the text of a key where its token goes."""
    key, counter, kind = draw.choice(KEYS), draw.choice(COUNTERS), draw.randrange(12)
    value = draw.choice(VALUES)
    stored = b'%s %s %s %d' % (key, draw.choice([b'0', b'5', b'4294967295']), draw.choice(EXPIRIES), len(value))
    if kind <= 2:
        verb = draw.choice([b'set', b'set', b'add', b'replace', b'append', b'prepend'])
        number = draw.choice(NUMBERS)
        return [
            draw.choice([b'set', b'add', b'replace']) + b' %s 0 0 %d\r\n%s\r\n' % (counter, len(number), number),
            b'%s %s%s\r\n%s\r\n' % (verb, stored, noreply(draw), value),
        ]
    if kind == 3:
        return [b'cas %s ' % stored, key.decode('latin1'), b'%s\r\n%s\r\n' % (noreply(draw), value)]
    if kind <= 5:
        verb = draw.choice([b'get', b'gets', b'gat %s' % draw.choice(EXPIRIES), b'gats 0'])
        return [b'%s %s\r\n' % (verb, b' '.join(draw.choices(KEYS + COUNTERS, k=draw.randint(1, 5))))]
    if kind == 6:
        return [b'%s %s %s%s\r\n' % (draw.choice([b'incr', b'decr']), counter, draw.choice(NUMBERS), noreply(draw))]
    if kind == 7:
        return [draw.choice([b'delete %s%s\r\n' % (key, noreply(draw)), b'touch %s %s%s\r\n' % (key, draw.choice(EXPIRIES), noreply(draw))])]
    if kind == 8 and draw.random() < 0.2:
        return [draw.choice([b'flush_all\r\n', b'flush_all noreply\r\n', b'flush_all 0\r\n', b'verbosity 0\r\n'])]
    if kind <= 9:
        return meta(draw, key, counter, value)
    return wrong(draw, counter)


def meta(draw, key, counter, value):
    flags = [b'k', b'O%d' % draw.randrange(99), b'q', b'c', b'f', b's', b't', b'v', b'T%s' % draw.choice([b'0', b'100'])]
    verb = draw.choice([b'mg', b'ms', b'md', b'ma'])
    if verb == b'mg':
        flags += [b'h', b'l', b'u', b'N%s' % draw.choice([b'0', b'60']), b'R%s' % draw.choice([b'0', b'30', b'200', b'-1'])]
    if verb == b'md':
        flags += [b'I', b'T60']
    if verb == b'ms' and draw.random() < 0.2:
        # Each item has a newer token.
        flags += [b'I C1', b'I C1']
    if verb == b'ms':
        flags += [b'F%d' % draw.randrange(99), b'M%s' % draw.choice(b'E A P R S X SS'.split()), b'T-1']
    if verb == b'ma':
        key = counter
        flags += [b'D%s' % draw.choice(NUMBERS), b'M%s' % draw.choice(b'I D + - X'.split()), b'J3', b'N%s' % draw.choice([b'0', b'60'])]
    chosen = draw.sample(flags, draw.randint(0, 5))
    if draw.random() < 0.03:
        chosen.append(draw.choice([b'?', b'C1125899906842624', b'Cx', b'Tx', b'k']))
    length = b' %d' % len(value) if verb == b'ms' else b''
    block = value + b'\r\n' if verb == b'ms' else b''
    return [b' '.join([b'%s %s%s' % (verb, key, length), *chosen]) + b'\r\n' + block]


def wrong(draw, key):
    """A line of words in any order, which is mostly refused. It has no block, so nothing of it is taken for one."""
    verbs = [b'get', b'gets', b'gat', b'incr', b'decr', b'touch', b'delete', b'verbosity', b'GET', b'', b'x', b'mg', b'md', b'ma']
    words = [draw.choice(verbs)] + [draw.choice([key, *TOKENS]) for _ in range(draw.randrange(5))]
    return [draw.choice([b' ', b'  ']).join(words) + draw.choice([b'\r\n', b'\n'])]


# Drawn lines that the two answer differently: the time that is left, asked for before it is changed, and a new one for a number.
DIFFERENT = re.compile(rb'^mg .*( [tR].* T| [tT].* N)|^ma .*( T| t.* N)')


def is_known(parts):
    return not DIFFERENT.search(b''.join(part for part in parts if isinstance(part, bytes)))


def explain(batch, answers):
    """Prints the first difference with the answers before it, and the lines that were sent. Long runs of a letter are cut."""
    place = next(place for place, (ours, theirs) in enumerate(zip(*answers)) if ours != theirs)
    told = [f'beside: after {answers[0][max(place - 3, 0):place]!r}', f'cefrodild: {answers[0][place]!r}', f'memcached: {answers[1][place]!r}']
    for line in told + [repr(parts) for parts in batch]:
        print(re.sub(r'(.)\1{19,}', r'\1..\1', line))
    return 1


def main():
    words = argparse.ArgumentParser(description=__doc__, formatter_class=argparse.RawDescriptionHelpFormatter)
    words.add_argument('ports', type=int, nargs=2)
    words.add_argument('--lines', type=int, default=20000)
    words.add_argument('--seed', type=int, default=1)
    given = words.parse_args()
    draw, peers, asked = random.Random(given.seed), [Peer(port) for port in given.ports], 0
    for peer in peers:
        peer.ask([b'flush_all\r\n'])
    while asked < given.lines:
        batch = [parts for parts in (command(draw) for _ in range(BATCH)) if is_known(parts)]
        parts = [part for command in batch for part in command]
        answers = [peer.ask(parts) for peer in peers]
        asked += len(batch)
        if answers[0] != answers[1]:
            return explain(batch, answers)
    print(f'beside: {asked} drawn lines are answered alike')
    return 0


if __name__ == '__main__':
    sys.exit(main())
