#!/usr/bin/env bash
# Lookups and puts in large tables: by calls for one key and for 32 keys, beside single calls of the peers, which have no such call; and
# lookups with large pages of memory, which glibc asks for with GLIBC_TUNABLES=glibc.malloc.hugetlb=1. The second table has the latter.
# bench/contests.py says how the contestants run and what a cell is.
#
# usage: [ROUNDS=N] [SECONDS_EACH=T] bench/many_lookups.sh [PROGRAM [ARCHIVE]]     the same as for bench/build, which is left out if BUILT names its folder
. "$(dirname "$0")/common.sh"

choose_contestants "$@"
results=${RESULTS:-$folder}
"$top/bench/contests.py" run large,huge "$built" "$results/large.jsonl"
"$top/bench/contests.py" table large "$results/large.jsonl"
echo
"$top/bench/contests.py" table huge "$results/large.jsonl"
