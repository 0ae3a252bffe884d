#!/usr/bin/env bash
# Measures session_program against session.rs on one script of 1,000,000 lines: both in turn, several times, and the ratio of
# their best times. `speed.sh PROGRAM` tries another program than crates/session_program/out/session_program. No part of the gate.
set -euo pipefail
here=$(cd "$(dirname "${BASH_SOURCE[0]}")" && pwd)
program=${1:-$here/../../crates/session_program/out/session_program}
rounds=7
made=$(mktemp -d)
trap 'rm -rf "$made"' EXIT

fail() {
    echo "session: $*" >&2
    exit 1
}

# The microseconds that a program takes for the script.
micros() {
    local before=${EPOCHREALTIME//[.,]/}
    "$1" < "$made/million.txt" > /dev/null
    echo $((${EPOCHREALTIME//[.,]/} - before))
}

least() {
    printf '%s\n' "$@" | sort -n | head -n 1
}

[ -x "$program" ] || fail "there is no program ${program#"$here/../../"}; rt run in crates/session_program builds it"
rustc -O --edition 2021 --check-cfg 'cfg(broken)' -o "$made/session" "$here/session.rs"
rustc -O --edition 2021 -o "$made/write-scripts" "$here/scripts.rs"
"$made/write-scripts" --million "$made/million.txt"

# A time counts only for the right answers.
"$made/session" < "$made/million.txt" > "$made/independent"
"$program" < "$made/million.txt" > "$made/program"
cmp "$made/independent" "$made/program" || fail "the answers differ"

ours=()
plain=()
for ((k = 0; k < rounds; k++)); do
    ours+=("$(micros "$program")")
    plain+=("$(micros "$made/session")")
done
a=$(least "${ours[@]}")
b=$(least "${plain[@]}")
echo "session: $(wc -l < "$made/million.txt") lines; program ${ours[*]}, independent ${plain[*]} microseconds"
echo "session: best of $rounds: program $a, independent $b; program / independent = $((a / b)).$(printf '%03d' $((a % b * 1000 / b)))"
