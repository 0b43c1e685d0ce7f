#!/usr/bin/env bash
# What a call of a map costs, in instructions counted by callgrind: values of 32 bytes in a map for 1,000 entries, of values or of objects. Prints a
# table.
#
# usage: [CEFRODIL_LIB=LIB] bench/map_costs.sh FOLDER     FOLDER: where the programs are built; LIB: the folder of libcefrodil.a; none: FOLDER
#
# It needs cargo, g++ and valgrind.
most=1
. "$(dirname "$0")/common.sh"
[ $# -eq 1 ] || { usage >&2 && exit 2; }

mkdir -p "$1"
built=$(realpath "$1") sources=$top/bench/peers/costs
CEFRODIL_LIB=$(realpath "${CEFRODIL_LIB:-$built}")
export CEFRODIL_LIB
[ -f "$CEFRODIL_LIB/libcefrodil.a" ] || fail "there is no $CEFRODIL_LIB/libcefrodil.a; c/build builds it"
g++ -O2 -std=c++17 -I"$top/c/include" "$sources/costs.cpp" "$CEFRODIL_LIB/libcefrodil.a" -lpthread -o "$built/costs_cpp" >&2
(cd "$sources" && CARGO_TARGET_DIR=$built/target cargo build --quiet --release --offline >&2)
cp "$built/target/release/costs" "$built/costs_rust"

# instructions WORD..: of so many calls.
instructions() {
    valgrind --tool=callgrind --callgrind-out-file=/dev/null "$@" 2>&1 | sed -n 's/.*Collected : //p'
}
# cost LANGUAGE KIND MAP [full]: of one call.
cost() {
    local less more
    less=$(instructions "$built/costs_$1" "$2" 1000 "${@:3}")
    more=$(instructions "$built/costs_$1" "$2" 6000 "${@:3}")
    echo $(((more - less) / 5000))
}
# row LABEL LANGUAGE MAP
row() {
    echo "|$1|$(cost "$2" hit "$3")|$(cost "$2" miss "$3")|$(cost "$2" miss "$3" full)|$(cost "$2" over "$3")|$(cost "$2" over "$3" full)|$(cost "$2" new "$3" full)|"
}
echo '||hit|miss|miss, full|put over a value|the same, full|put of a new key, full|'
echo '|---|---|---|---|---|---|---|'
row 'Rust, `Map`' rust values
row 'Rust, `ObjectMap`' rust objects
row 'C++, `map`' cpp values
row 'C++, `object_map`' cpp objects
