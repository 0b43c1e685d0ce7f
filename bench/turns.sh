#!/usr/bin/env bash
# Threads that share one map. Each puts once in ten calls, or once in two, and looks keys up else. The cache's threads take turns at one desk,
# or at 16 or 64 shards. Each put tries once for its turn; a put that doesn't win it is no write. Beside it are maps that
# several threads may write at once.
# bench/contests.py says how the contestants run and what a cell is.
#
# usage: [ROUNDS=N] [SECONDS_EACH=T] bench/turns.sh [PROGRAM [ARCHIVE]]     the same as for bench/build, which is left out if BUILT names its folder
. "$(dirname "$0")/common.sh"

choose_contestants "$@"
results=${RESULTS:-$folder}
"$top/bench/contests.py" run turns "$built" "$results/turns.jsonl"
"$top/bench/contests.py" table turns "$results/turns.jsonl"
