#!/usr/bin/env bash
# The load of the table at the first put that finds no path, for each depth, with mixed keys and 65,536 buckets. It prints a table.
#
# usage: bench/load_factor.sh [PROGRAM]     PROGRAM: the mcstep to ask; none: crates/mcstep/out/mcstep
most=1
. "$(dirname "$0")/common.sh"

choose_program "${1:-$top/crates/mcstep/out/mcstep}" "(cd crates/mcstep && rt run < stdin)"
told=$(printf 'put 0 7\nget 0\n' | timeout 10 "$program" 2> /dev/null | head -c 100) || true
[ "$told" = $'stored at 1 moves 0\nfound 7 at 1' ] || fail "$program doesn't answer as mcstep does"

# Replays a script. Arguments: the script, the options of mcstep.
play() {
    local script=$1
    shift
    "$program" "$@" < "$script" 2> "$folder/errors" || fail "mcstep $*: $(head -n 1 "$folder/errors")"
}

buckets=65536
slots=$((4 * buckets))

awk -v slots="$slots" 'BEGIN { for (key = 0; key < slots; key++) print "put", key, 1 }' > "$folder/script"
depths='|depth|' rule='|---|' loads='|load|'
for depth in 0 1 2 3 4 5 6 7 8; do
    play "$folder/script" --mix fmix --depth "$depth" --buckets "$buckets" --items "$slots" > "$folder/answers"
    first=$(awk '/^refused no path/ { print NR; exit }' "$folder/answers")
    [ -n "$first" ] || fail "at depth $depth no put was refused because there was no path"
    depths+="$depth|" rule+='---|'
    loads+="$(awk -v first="$first" -v slots="$slots" 'BEGIN { printf "%.3f", (first - 1) / slots }')|"
done
printf '%s\n' "$depths" "$rule" "$loads"
