#!/usr/bin/env bash
# Lookups in a full cache by each policy, from C, and in an LRU cache behind a mutex. The keys are drawn by Zipf's law with skew 0.99, and each key
# that is missed is put. The caches from C have 16 shards, each of which has just its share of the items. Keys are drawn beforehand, so a call's time
# is that of the cache alone. bench/contests.py says how the contestants run and what a cell is.
#
# usage: [ROUNDS=N] [SECONDS_EACH=T] [CEFRODIL_LIB=LIB] bench/full_cache.sh FOLDER
#        FOLDER: where the program is built, and where the results lie unless RESULTS names another folder
#        LIB: the folder of libcefrodil.a; none: FOLDER, where bench/build leaves it
#
# It needs cargo, g++ and, of Debian: apt-get install librust-lru-dev librust-rand-distr-dev.
most=1
. "$(dirname "$0")/common.sh"
[ $# -eq 1 ] || { usage >&2 && exit 2; }

mkdir -p "$1"
built=$(realpath "$1") library=${CEFRODIL_LIB:-$1}/libcefrodil.a
[ -f "$library" ] || fail "there is no $library; c/build builds it"
g++ -O3 -march=x86-64-v2 -std=c++17 -pthread -I"$top/c/include" "$top/bench/peers/door_shards.cpp" "$library" -o "$built/door_shards" >&2
crates=$(dpkg -L librust-lru-dev 2> /dev/null | grep -m1 '/lru-[0-9][^/]*/Cargo.toml$') || fail "there is no crate lru; see --help"
cp -r "$top/bench/peers/twin" "$built"
mkdir -p "$built/twin/.cargo"
printf '[source.crates-io]\nreplace-with = "debian"\n[source.debian]\ndirectory = "%s"\n' "$(dirname "$(dirname "$crates")")" > "$built/twin/.cargo/config.toml"
(cd "$built/twin" && RUSTFLAGS='-C target-cpu=x86-64-v2' cargo build --quiet --release --features full --bin full_lru >&2)
cp "$built/twin/target/release/full_lru" "$built"

results=${RESULTS:-$built}
"$top/bench/contests.py" run full "$built" "$results/full.jsonl"
"$top/bench/contests.py" table full "$results/full.jsonl"
