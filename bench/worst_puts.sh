#!/usr/bin/env bash
# What the cache costs at worst, and once: a put when every item was used, a refused put, opening and growing, and the heap of a handle.
# bench/worst.py says what each row is.
#
# usage: [ROUNDS=N] bench/worst_puts.sh [PROGRAM [ARCHIVE]]     the same as for bench/build, which is left out if BUILT names its folder
. "$(dirname "$0")/common.sh"

choose_contestants "$@"
python3 "$top/bench/worst.py" "$built" "${RESULTS:-$folder}/worst.jsonl"
