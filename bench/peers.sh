#!/usr/bin/env bash
# The cache beside its peers: lookups and puts of mcbench, of the same cache called from C, of libcuckoo, TBB, userspace RCU, dashmap and
# a HashMap under a lock, and of an unproved twin of the same algorithm. bench/contests.py says how they run and what a cell is.
#
# usage: [ROUNDS=N] [SECONDS_EACH=T] bench/peers.sh [PROGRAM [ARCHIVE]]     the same as for bench/build, which is left out if BUILT names its folder
. "$(dirname "$0")/common.sh"

choose_contestants "$@"
results=${RESULTS:-$folder}
"$top/bench/contests.py" run peers "$built" "$results/peers.jsonl"
"$top/bench/contests.py" table peers "$results/peers.jsonl"
