#!/usr/bin/env bash
# How many instructions a call takes, of the cache by each policy, of the same called from C, and of the unproved twin, in tables for 1,000 keys,
# by valgrind's callgrind. What else the machine does changes no count. Each program runs twice, for a shorter and for a longer time. What the
# longer run has more, in instructions and in calls, is divided, so that the start and the filling of the first table count for nothing.
#
# usage: bench/instructions.sh [PROGRAM [ARCHIVE]]     the same as for bench/build, which is left out if BUILT names its folder
#
# It needs valgrind, and what bench/build needs.
. "$(dirname "$0")/common.sh"
command -v valgrind > /dev/null || fail "there is no valgrind; see --help"

workloads='
lookups --workload hit
lookups --workload miss
writes --workload mixed --readers 0 --writers 1
writes --workload fill --readers 0 --writers 1
writes --workload evict --readers 0 --writers 1
'

# Prints how many instructions a program executes, and how many calls it made.
# Arguments: the contestant, what it counts, its time in seconds, the options.
count() {
    local name=$1 what=$2 time=$3 told run
    shift 3
    local options=("$@" --keys 1000 --capacity 1000 --seconds "$time")
    case "$name" in
        clock) run=("$built/mcbench" "${options[@]}") ;;
        cefrodil) run=("$built/mcbench" --policy scan-resistant "${options[@]}") ;;
        door_clock) run=("$built/door" --clock 1 "${options[@]}") ;;
        door) run=("$built/door" "${options[@]}") ;;
        twin) run=("$built/contest" "${options[@]}" twin) ;;
    esac
    told=$(valgrind --fair-sched=yes --tool=callgrind --callgrind-out-file=/dev/null "${run[@]}" 2> "$folder/errors") || fail "$name: $(tail -n 1 "$folder/errors")"
    echo "$(sed -n 's/.*Collected : \([0-9]*\).*/\1/p' "$folder/errors") $(sed -n "s/.*\"$what\":\([0-9]*\).*/\1/p" <<< "$told")"
}

# Prints the instructions of a call. Arguments: the same as for `count`, without the time.
instructions() {
    local name=$1 what=$2
    shift 2
    { count "$name" "$what" 0.2 "$@" && count "$name" "$what" 1 "$@"; } | awk '
        NR == 1 { instructions = $1; calls = $2 }
        NR == 2 { printf "%.0f", ($1 - instructions) / ($2 - calls) }'
}

# Prints a row of the table. Arguments: the contestant, and how it is shown.
row() {
    local what options cells=''
    while read -r what options; do
        [ -n "$what" ] || continue
        # shellcheck disable=SC2086
        cells+=" $(instructions "$1" "$what" $options) |"
    done <<< "$workloads"
    echo "| $2 |$cells"
}

choose_contestants "$@"
echo '| | hit | miss | overwrite | fill | evict |'
echo '|---|---|---|---|---|---|'
row clock 'Cefrodil, CLOCK'
row cefrodil Cefrodil
row door_clock 'from C, CLOCK'
row door 'from C'
row twin 'unproved twin'
