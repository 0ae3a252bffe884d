#!/usr/bin/env bash
# Tries the pager's C entrance against the plain machine at full size, in pairs of runs, and on memory that no call left:
#     tests/trials/run.sh                          the gate's seeds, about a minute in all
#     tests/trials/run.sh long [SEED] [MINUTES]    other seeds from SEED on; a failure tells its seed, and that SEED finds it again
#     tests/trials/run.sh broken                   the trials themselves, on entrances that are wrong in one way each (broken.rs)
set -euo pipefail
here=$(cd "$(dirname "${BASH_SOURCE[0]}")" && pwd)
cd "$here/../.."
made=$(mktemp -d)
trap 'rm -rf "$made"' EXIT

fail() {
    echo "trials: $*" >&2
    exit 1
}

# The trials over the library: name of the program, then more for rustc.
build() {
    rustc -O --edition 2021 "${@:2}" --check-cfg 'cfg(broken)' -L target/bindings -l static=corwystal \
        -C link-arg="$made/header.o" -o "$made/$1" "$here/main.rs"
}

# The few on the heap, under memcheck: it ends a program at its first step outside a block.
check() {
    local status=0
    valgrind -q --tool=memcheck --error-exitcode=1 --exit-on-first-error=yes "$@" checked > "$made/rounds" 2> "$made/errors" || status=$?
    [ "$status" = 0 ] && return
    cat "$made/errors" >&2
    fail "$(tail -n 1 "$made/rounds"), under the address checker"
}

# Each wrong entrance is found by the gate's trials; those that step outside, by the address checker too; those by which a page shows
# what its frame held before the start, by two runs too, where the plain machine has no say; those that clear other bytes than the rule
# says, or change words at a hand-back that no rule gives it, by calls on any memory too.
broken() {
    build wrong --cfg broken
    local names number=0
    mapfile -t names < <("$made/wrong" faults)
    for name in "${names[@]}"; do
        export TRIALS_FAULT=$number
        "$made/wrong" gate > /dev/null 2> "$made/found" && fail "not found: $name"
        echo "$name -- $(head -n 1 "$made/found")"
        case $name in
        *"reads an entry"*) (check "$made/wrong") 2> /dev/null && fail "not found by the address checker: $name" ;;
        *"leaves the"*"old byte"*) "$made/wrong" alike > /dev/null 2>&1 && fail "not found by two runs: $name" ;;
        esac
        case $name in
        touch*leaves* | touch*clears* | touch*RAM* | write*leaves* | write*"clears a "* | give_back*changes* | give_back*twice)
            "$made/wrong" any > /dev/null 2>&1 && fail "not found on any memory: $name"
            ;;
        esac
        number=$((number + 1))
    done
    echo "trials: ${#names[@]} wrong entrances found"
}

bindings/library
cc -O1 -I bindings/c -c -o "$made/header.o" "$here/header.c"
case ${1:-gate} in
gate)
    build trials
    "$made/trials" gate
    check "$made/trials"
    tail -n 1 "$made/rounds"
    ;;
long)
    build trials
    "$made/trials" long "${2:-1000}" "${3:-10}"
    ;;
broken) broken ;;
*) fail "run.sh, run.sh long [SEED] [MINUTES], or run.sh broken" ;;
esac
