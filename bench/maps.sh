#!/usr/bin/env bash
# Maps of a program's own types beside their peers: cefrodil-map beside dashmap, a HashMap under a lock and an LRU cache under a mutex; and
# cefrodil::map beside libcuckoo and TBB. All hash by SipHash-1-3 with a secret. In the rows with a quick hash, all hash by two multiplications.
# The cefrodil maps keep no strings, so they compare the two words of one SipHash. A number is its own second word. With the quick hash
# `cefrodil::map` takes two hashes. Keys are numbers, or strings of 16 letters. Each lookup's value is compared with the one that was put for its key.
# bench/contests.py says how the contestants run and what a cell is.
#
# The tables of millions of keys also have a cache called from C, with 64 shards. Its keys are numbers, so it needs no hash.
#
# A full cache holds half of the keys that are drawn. Each key that is missed is put. The table has the share of hits, since cefrodil-map and
# cefrodil::map hold some more keys than they are asked to.
#
# usage: [ROUNDS=N] [SECONDS_EACH=T] [CEFRODIL_LIB=LIB] bench/maps.sh FOLDER
#        FOLDER: where the programs are built, and where the results lie unless RESULTS names another folder
#        LIB: the folder of libcefrodil.a; none: FOLDER, where bench/build leaves it
#
# It needs cargo, g++ and, of Debian: apt-get install libcuckoo-dev libtbb-dev librust-dashmap-dev librust-lru-dev.
most=1
. "$(dirname "$0")/common.sh"
[ $# -eq 1 ] || { usage >&2 && exit 2; }

mkdir -p "$1"
built=$(realpath "$1") sources=$top/bench/peers
CEFRODIL_LIB=$(realpath "${CEFRODIL_LIB:-$built}")
export CEFRODIL_LIB
[ -f "$CEFRODIL_LIB/libcefrodil.a" ] || fail "there is no $CEFRODIL_LIB/libcefrodil.a; c/build builds it"
crates=$(dpkg -L librust-dashmap-dev 2> /dev/null | grep -m1 '/dashmap-[0-9][^/]*/Cargo.toml$') || fail "there is no crate dashmap; see --help"

# All are built for the processors for which the toolchain builds mcbench.
cxx() { g++ -O3 -march=x86-64-v2 -std=c++17 -pthread -I"$top/c/include" "$@" >&2; }
cxx "$sources/maps.cpp" "$CEFRODIL_LIB/libcefrodil.a" -ltbb -o "$built/maps_cpp"
cxx "$sources/door_shards.cpp" "$CEFRODIL_LIB/libcefrodil.a" -o "$built/door_shards"
cp -r "$sources/twin" "$sources/maps" "$built"
mkdir -p "$built/maps/.cargo"
printf '[source.crates-io]\nreplace-with = "debian"\n[source.debian]\ndirectory = "%s"\n[patch.crates-io]\ncefrodil-map = { path = "%s" }\n' \
    "$(dirname "$(dirname "$crates")")" "$top/map" > "$built/maps/.cargo/config.toml"
(cd "$built/maps" && RUSTFLAGS='-C target-cpu=x86-64-v2' cargo build --quiet --release >&2)
cp "$built/maps/target/release/maps" "$built/maps_rust"

results=${RESULTS:-$built}
"$top/bench/contests.py" run maps,kinds,millions "$built" "$results/maps.jsonl"
for bench in maps kinds millions; do
    "$top/bench/contests.py" table $bench "$results/maps.jsonl"
done
