#!/usr/bin/env python3
"""How many lookups find their key in maps and in the server, beside models of policies.

`Map` and `ObjectMap` of the crate `cefrodil-map`, `map` and `object_map` of C++ and the server make the same lookups, in one shard. An `ObjectMap`
and an `object_map` are bounded by the number of their entries, or by weights: an `ObjectMap` also in 16 shards, as many as the server's index has.
The server gets its commands without a connection. The lookups are those of bench/traces.py, and the models of bench/policies.py. A key that is
absent is put. It prints a table.

usage: bench/map_hits.py [LOOKUPS]     LOOKUPS: 600,000 unless it says otherwise

CEFRODIL_LIB names the folder of libcefrodil.a; none: that of the release, and nothing of C++. It takes some eight minutes. It needs cargo and g++
and, of Debian, the server's crates: see server/README.md.
"""
import os
import subprocess
import sys
import tempfile

from policies import MODELS
from servers import CRATES, TOP
from traces import cases, of_model, of_program

# What each program calls its caches, and the table's heads.
CACHES = {
    'Rust': {'map': '`Map`', 'number': '`ObjectMap`', 'objects': 'by weights', 'shards': '16 shards', 'server': 'server'},
    'C++': {'map': '`cefrodil::map`', 'objects': '`object_map`', 'weights': 'by weights'},
}


def built_of_rust(sources):
    source = ['--config', 'source.crates-io.replace-with="debian"', '--config', f'source.debian.directory="{CRATES}"']
    subprocess.run(['cargo', 'build', '--quiet', '--release', '--offline', *source], cwd=sources, check=True)
    return os.path.join(os.environ.get('CARGO_TARGET_DIR', os.path.join(sources, 'target')), 'release/ratio')


def built_of_cxx(sources, folder):
    program, library = os.path.join(folder, 'ratio'), os.path.join(os.environ['CEFRODIL_LIB'], 'libcefrodil.a')
    options = ['-std=c++17', '-O2', '-I', os.path.join(TOP, 'c/include'), '-o', program]
    subprocess.run(['g++', *options, os.path.join(sources, 'ratio.cpp'), library, '-lpthread'], check=True)
    return program


def built(folder):
    """The programs that make the lookups, each by how it is shown."""
    sources = os.path.join(TOP, 'bench/peers/ratio')
    programs = {'Rust': built_of_rust(sources)}
    if 'CEFRODIL_LIB' in os.environ:
        programs['C++'] = built_of_cxx(sources, folder)
    return programs


def main(arguments):
    if len(arguments) > 1 or (arguments and not arguments[0].isdigit()):
        sys.exit(__doc__)
    lookups = int(arguments[0]) if arguments else 600_000
    with tempfile.TemporaryDirectory() as folder:
        show(built(folder), lookups)


def show(programs, lookups):
    caches = {head: (programs[name], cache) for name in programs for cache, head in CACHES[name].items()}
    print('|lookups|skew|items|' + '|'.join([*caches, *MODELS]) + '|')
    print('|---' * (3 + len(caches) + len(MODELS)) + '|')
    for head, items, keys in cases(lookups):
        hits = [of_program([program, str(items), cache], keys) for program, cache in caches.values()]
        hits += [of_model(model(items), keys) for model in MODELS.values()]
        print(head + '|'.join(f'{each:.1f}' for each in hits) + '|', flush=True)


if __name__ == '__main__':
    main(sys.argv[1:])
