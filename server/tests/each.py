#!/usr/bin/env python3
"""Sends each line of some tables to cefrodild and to memcached, and compares the answers and what the keys have then.

The tables have what is seldom drawn: each flag of each meta command, each number of words, odd numbers, faults two at a time.
Lines that the two are known to answer differently are not sent: README.md names each difference. The exit status is 1 after a difference.

usage: each.py PORT PORT: those of cefrodild and of memcached
"""
import itertools
import re
import string
import sys

from beside import Peer

LONG = 'k' * 251
# The keys of a line: a number, a text, a value that has expired, none, and the longest key.
KEYS = ['n', 't', 'gone', 'none', 'k' * 250]
BEFORE = b''.join([
    b'flush_all\r\nverbosity 0\r\n',
    b'set n 7 0 1\r\n5\r\n',
    b'set t 8 0 4\r\ntext\r\n',
    b'set gone 9 -1 1\r\n5\r\n',
    b'delete none\r\n',
    b'delete %s\r\n' % KEYS[4].encode(),
])
AFTER = b''.join(b'mg %s v f t\r\n' % key.encode() for key in KEYS)
NUMBERS = ['0', '-0', '+0', '1', '+1', '-1', '007', '1x', 'x', '-', '+', '1.5', '0x10', '2147483647', '4294967295', '9223372036854775807', '18446744073709551615', '18446744073709551616']
# Flags have 32 bits, and memcached takes times for 32 bits, too.
FLAGS = [number for number in NUMBERS if number not in ['9223372036854775807', '18446744073709551615']]
# One second may be over at once.
TIMES = ['100', '+100'] + [number for number in FLAGS if number not in ['1', '+1', '4294967295']]
STORING = ['set', 'add', 'replace', 'append', 'prepend']
# Flags that memcached takes and cefrodild refuses: some it lacks, and others belong to another meta command.
REFUSED = {'mg': 'NRDFIJM', 'ms': 'INhluDJR', 'md': 'IhluDFJMNR', 'ma': 'hluFIR'}


def flags():
    """Each letter behind each meta command, with tokens and without."""
    for verb, letter, token, key in itertools.product(REFUSED, string.ascii_letters + '!+0', ['', '0', '100', 'x', '-1', 'I', 'S', 'II', 'SS'], KEYS[:4]):
        if letter not in REFUSED[verb]:
            yield f'{verb} {key}{" 2" if verb == "ms" else ""} {letter}{token} v k f s', '55' if verb == 'ms' else None


def modes():
    """Each meta command, quiet or not, with each mode and condition."""
    known = {'mg': [''], 'ms': [f'M{mode}' for mode in 'EAPRSX'] + ['', 'M'], 'md': [''], 'ma': ['', 'MI', 'M+', 'MD', 'M-', 'MX', 'M']}
    for verb, more, condition in itertools.product(known, ['', 'q', 'q k Oabc c', 'N0 q', 'N0 J8 v q', 'N0 J8 v'], ['', 'C1', f'C{1 << 50}']):
        for mode, key in itertools.product(known[verb], KEYS[:4]):
            if verb == 'ma' or 'N' not in more:
                yield f'{verb} {key}{" 2" if verb == "ms" else ""} {mode} {condition} {more}', '55' if verb == 'ms' else None


def words():
    """Each command with each number of words."""
    lines = ['get n', 'gets n', 'gat 0 n', 'gats 0 n', 'set n 0 0 2', 'add none 0 0 2', 'replace n 0 0 2', 'append n 0 0 2', 'prepend n 0 0 2', 'cas n 0 0 2 1', 'incr n 1', 'decr n 1', 'touch n 0', 'delete n', 'flush_all', 'verbosity 1', 'mg n', 'ms n 2', 'md n', 'ma n']
    for line, more in itertools.product(lines, ['', 'noreply', '0', '0 noreply', '1', 'x noreply', 'noreply 0', '0 0', '0 0 0', '0 0 0 noreply', '0 0 0 0', '0 0 0 0 noreply']):
        every = line.split() + more.split()
        for count in range(1, len(every) + 1):
            yield ' '.join(every[:count]), None


def numbers():
    """Odd numbers in each place where a number goes."""
    places = [
        (FLAGS, '55', ['set KEY {} 0 2', 'set KEY {} 0 2 noreply', 'ms KEY 2 F{}']),
        (TIMES, '55', ['set KEY 0 {} 2', 'set KEY 0 {} 2 noreply', 'ms KEY 2 T{}']),
        (NUMBERS, '55', ['cas KEY 0 0 2 {}', 'cas KEY 0 0 2 {} noreply', 'ms KEY 2 C{}']),
        (TIMES, None, ['touch KEY {}', 'touch KEY {} noreply', 'gat {} KEY', 'gats {} KEY', 'mg KEY T{}', 'ma KEY N{}', 'ma KEY N{} T100', 'ma KEY T{} N100', 'ma KEY N100 T{}', 'ma KEY T100 N{}']),
        (NUMBERS, None, ['incr KEY {}', 'incr KEY {} noreply', 'decr KEY {}', 'decr KEY {} noreply', 'delete KEY {}', 'delete KEY {} noreply']),
        (NUMBERS, None, ['verbosity {}', 'verbosity {} noreply', 'md KEY C{}', 'ma KEY D{} v', 'ma KEY MD D{} v', 'ma KEY N0 J{} v']),
    ]
    for known, block, lines in places:
        for number, line, key in itertools.product(known, lines, ['n', 'none']):
            yield line.format(number).replace('KEY', key), block
    for number, command in itertools.product(NUMBERS, ['incr', 'decr']):
        yield f'set n 7 0 {len(number)}\r\n{number}\r\n{command} n 3', None


def faults():
    """Two faults at a time: the first one that is looked for is answered."""
    for key, number, behind in itertools.product(['n', LONG], ['100', 'x', '-1'], ['', ' noreply', ' more', ' more noreply']):
        yield from ((f'{line}{behind}', None) for line in [f'incr {key} {number}', f'decr {key} {number}', f'touch {key} {number}', f'delete {key} {number}', f'delete {key}', f'gat {number} {key}', f'gats {number} {key}'])
        if not behind:
            yield from ((line, None) for line in [f'mg {key} T{number}', f'md {key} C{number}', f'ma {key} D{number}', f'ma {key} D{number} D{number}'])
        yield from ((f'{line}{behind}', None) for verb in STORING for line in [f'{verb} {key} {number} 0 2', f'{verb} {key} 0 {number} 2', f'{verb} {key} 0 0 {number}'])
    for line in ['ms n x T100', f'ms {LONG} 2', f'ms {LONG} x', 'ms n 2 MX T', 'ms n 2 T MX', 'ms n 2 MX MX', 'ms n 2 ! k k', 'ms n 2 k k !', 'mg', 'ms', 'md', 'ma', 'mx n', 'm n']:
        yield line, '55'


def blocks():
    """Blocks that are right, too short, too long and without an end."""
    lines = [f'{verb} {key} 3 0 2' for verb in STORING for key in KEYS] + [f'ms {key} 2' for key in KEYS]
    for line, behind, block in itertools.product(lines, ['', ' noreply'], ['55', '5', '555', '5555', '']):
        if not (line.startswith('ms') and behind):
            yield line + behind, block


def base64_keys():
    """Keys as base64, right and wrong, behind each meta command, and the key of what was stored so or not."""
    texts = ['Zg==', 'Zm8=', 'Zm9v', 'Pz8/', 'YSBiDQo=', 'AAAA', '////', 'Zm9vYh==', 'Zm9=', 'Zm=v', 'Zg=v', 'Zm8=AAAA', 'Zm8=A', 'Zg', 'Zm9', 'Z===', '====', '=AAA', 'A=AA', 'Zm9-', 'Zm9_', 'none', 'n', 'A' * 248, 'A' * 252]
    for text, verb, more in itertools.product(texts, ['mg {}', 'ms {} 2', 'md {}', 'md {} I', 'ma {}'], ['b', 'b k', 'k b O7', 'k b q', 'k bx', 'k b v', 'k']):
        store = f'ms {text} 2 b\r\n55\r\n'
        line = f'{verb.format(text)} {more}' + ('\r\n66' if verb.startswith('ms') else '')
        yield f'{line}\r\nmg {text} b k v\r\n{store}{line}\r\nmg {text} k b v h\r\nme {text} b', None
    for text, more in itertools.product(texts + KEYS, ['', ' b', ' bx', ' q b', ' b b', ' x']):
        yield f'me {text}{more}', None
    for line in ['me', 'me ', 'me n\r\nget n\r\nme n', 'me t\r\nmg t T100 l h\r\nme t', 'touch n 100\r\nme n', f'me {LONG}', 'md n I\r\nme n\r\nmg n h l', 'mg n u h\r\nmg n h\r\nmg n u h\r\nme n', 'mg none N0 u h\r\nmg none h', 'mg t T100 u h\r\nme t']:
        yield line, None


def odd_bytes():
    """Each byte before, in and behind a number and a word. A zero ends memcached's text, and a line feed the line."""
    for byte in map(chr, range(1, 256)):
        for value in [f'{byte}5', f'5{byte}', f'5{byte}6', f' {byte}5']:
            yield f'set n 7 0 {len(value)}\r\n{value}\r\nincr n 1', None
        if byte not in '\nb':
            places = ['get n{}', 'get {}n', '{}get n', 'get{}n', 'incr n 2{}', 'incr n {}2', 'touch n 200{}', 'delete n{}', 'delete n noreply{}', 'incr n 1 noreply{}', 'gat 0{} n', 'flush_all{}', 'flush_all {}0', 'mg n v{}']
            yield from ((place.format(byte), None) for place in places)
            yield f'set n 0 0{byte}2', '55'


# Lines that the two answer differently: a token of 0 for `ma`, a delay of one second, and a long key of `gat`.
DIFFERENT = re.compile(r'ma .* C0|flush_all 1$|gats? .* k{251}')


def main():
    peers, asked = [Peer(int(port)) for port in sys.argv[1:3]], 0
    for table in [flags, modes, words, numbers, faults, blocks, base64_keys, odd_bytes]:
        for line, block in table():
            if DIFFERENT.match(line):
                continue
            text = line.encode('latin1') + b'\r\n' + (b'' if block is None else block.encode() + b'\r\n')
            answers = [peer.ask([BEFORE, text, AFTER]) for peer in peers]
            asked += 1
            if answers[0] != answers[1]:
                print(f'each: {text!r} of {table.__name__}', *answers, sep='\n')
                return 1
    print(f'each: {asked} lines of tables are answered alike')
    return 0


if __name__ == '__main__':
    sys.exit(main())
