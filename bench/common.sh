# What the benches share, which read it by `.`: how they fail, their help, and a folder that is deleted when the bench ends.
# A wrong program, and a run that fails, end the bench with status 2 and a line on standard error.
# shellcheck shell=bash
set -euo pipefail
shopt -s inherit_errexit
export LC_ALL=C

fail() {
    echo "${0##*/}: $1" >&2
    exit 2
}

# The comment at the top of the bench.
usage() {
    sed -n '2,/^[^#]/s/^# \{0,1\}//p' "$0"
}

# A bench takes at most two words, unless it sets `most`.
case "$#:${1:-}" in
    1:-h | 1:--help) usage && exit 0 ;;
    *:-*) usage >&2 && exit 2 ;;
esac
if (($# > ${most:-2})); then
    usage >&2
    exit 2
fi

folder=$(mktemp -d)
trap 'rm -rf "$folder"' EXIT

top=$(cd "$(dirname "$0")/.." && pwd)

# Sets `program`. Arguments: the requested program, and how the default one is built.
choose_program() {
    if [ ! -f "$1" ] || [ ! -x "$1" ]; then
        fail "there is no program $1; to build it: $2"
    fi
    program=$(realpath "$1")
}

# Sets `built`, the folder of the contestants: that of the environment, or one that is built now.
# Arguments: those of the bench, which may name mcbench and the archive.
choose_contestants() {
    built=${BUILT:-}
    if [ -z "$built" ]; then
        built=$folder/built
        "$top/bench/build" "$built" "$@" >&2 || exit 2
    fi
    [ -x "$built/mcbench" ] || fail "there is no $built/mcbench; bench/build builds it"
}
