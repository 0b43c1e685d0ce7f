#!/usr/bin/env python3
"""Runs memcached's own tests with cefrodild, and compares what fails with suites.txt.

usage: suites.py CEFRODILD SOURCE [FILE..]
       suites.py CEFRODILD SOURCE --write     writes the numbers to suites.txt, and keeps its reasons

SOURCE: the folder of memcached's source, which Debian has: apt-get source memcached. FILE: as getset.t; none: all of t/. It needs perl and gcc.

The tests run a stand-in for memcached-debug. It gives cefrodild 16 MB at least, and leaves out options that are about memcached's inside. The tests
move memcached's clock by a command. Here they sleep. A line of suites.txt has a file, how many assertions hold and fail there, whether it passes
whole, and why not. Exits with 1 if a file does not pass whole that did.
"""
import concurrent.futures
import os
import re
import shutil
import subprocess
import sys
import tempfile

TABLE = os.path.join(os.path.dirname(os.path.abspath(__file__)), 'suites.txt')
TIMEOUT = 100
AT_ONCE = 4
STAND_IN = r'''#!/usr/bin/env python3
import os, re, sys
# What is about memcached's inside: threads' limits, growth of slabs, verbosity of its log, protocol of the first byte, backlog.
WITHOUT = {'-R': 2, '-f': 2, '-b': 2, '-B': 2, '-D': 2, '-L': 1, '-C': 1}
words, passed = [word for part in sys.argv[1:] for word in [part]], []
while words:
    word = words.pop(0)
    if word in WITHOUT:
        del words[:WITHOUT[word] - 1]
    elif word == '-U':
        words.pop(0)
    elif word == '-o':
        passed += ['-o', ','.join(one for one in words.pop(0).split(',') if one.startswith('idle_timeout='))]
    elif word == '-m':
        passed += ['-m', str(max(16, int(words.pop(0))))]
    else:
        passed.append(word)
os.execv(os.environ['CEFRODILD'], ['cefrodild', *passed])
'''


def prepared(source, folder):
    """A copy of the tests, with the stand-in."""
    for part in ['t', 'doc']:
        shutil.copytree(f'{source}/{part}', f'{folder}/{part}')
    subprocess.run(['gcc', '-w', '-o', f'{folder}/timedrun', f'{source}/timedrun.c'], check=True)
    with open(f'{folder}/memcached-debug', 'w', encoding='ascii') as file:
        file.write(STAND_IN)
    os.chmod(f'{folder}/memcached-debug', 0o755)
    library = f'{folder}/t/lib/MemcachedTest.pm'
    with open(library, encoding='utf-8') as file:
        text = file.read()
    moved = r'print \$sock "debugtime \$move\\r\\n";\s*<\$sock>;'
    assert len(re.findall(moved, text)) == 1, library
    with open(library, 'w', encoding='utf-8') as file:
        file.write(re.sub(moved, 'select undef, undef, undef, $move;', text))


def outcome(folder, name):
    """How many assertions hold and fail in a file, and whether it passes whole. None: it leaves itself out."""
    # In a group of its own, which is killed if a test waits for ever: so its servers end, too.
    process = subprocess.Popen(['perl', '-Ilib', f't/{name}'], cwd=folder, stdout=subprocess.PIPE, stderr=subprocess.DEVNULL, text=True, errors='replace', start_new_session=True)
    try:
        said, _ = process.communicate(timeout=TIMEOUT)
    except subprocess.TimeoutExpired:
        os.killpg(process.pid, 9)
        said, _ = process.communicate()
    if re.search(r'^1\.\.0\b', said, re.M):
        return None
    good, bad = len(re.findall(r'^ok\b', said, re.M)), len(re.findall(r'^not ok\b', said, re.M))
    return good, bad, process.returncode == 0


def table():
    """Of each file, whether it passes whole, and why not."""
    with open(TABLE, encoding='utf-8') as file:
        rows = [line.rstrip('\n').split('|') for line in file if not line.startswith('#')]
    return {name: (end == 'whole', why) for name, _, _, end, why in rows}


def write(found, expected):
    with open(TABLE, encoding='utf-8') as file:
        head = [line for line in file if line.startswith('#')]
    with open(TABLE, 'w', encoding='utf-8') as file:
        file.writelines(head)
        for name, (good, bad, is_whole) in sorted(found.items()):
            why = '' if is_whole else expected.get(name, (False, ''))[1]
            file.write(f'{name}|{good}|{bad}|{"whole" if is_whole else "in part"}|{why}\n')


def main():
    program, source, *more = sys.argv[1:]
    os.environ['CEFRODILD'] = os.path.abspath(program)
    names = [word for word in more if word != '--write'] or sorted(name for name in os.listdir(f'{source}/t') if name.endswith('.t'))
    expected = table()
    with tempfile.TemporaryDirectory() as folder, concurrent.futures.ThreadPoolExecutor(AT_ONCE) as pool:
        prepared(source, folder)
        found = {}
        for name, what in zip(names, pool.map(lambda name: outcome(folder, name), names)):
            print(f'suites: {name}: {"leaves itself out" if what is None else f"{what[0]} hold, {what[1]} fail"}', flush=True)
            if what is not None:
                found[name] = what
    if '--write' in more:
        write(found, expected)
        return 0
    worse = [name for name, (_, _, is_whole) in found.items() if not is_whole and expected.get(name, (False, ''))[0]]
    for name in worse:
        print(f'suites: {name} passed whole before')
    whole = sum(is_whole for _, _, is_whole in found.values())
    print(f'suites: {whole} of {len(found)} files pass whole, {sum(good for good, _, _ in found.values())} assertions hold; {len(names) - len(found)} files leave themselves out')
    return 1 if worse else 0


if __name__ == '__main__':
    sys.exit(main())
