#!/usr/bin/env bash
# Plays the scripts of scripts.rs on the program session_program and on session.rs, the plain machine, and holds their answers to each
# other byte for byte. `run.sh PROGRAM` tries another program than crates/session_program/out/session_program, `run.sh broken` the scripts themselves,
# on players that are wrong in one way each (wrong.rs).
set -euo pipefail
# bytes, not letters: the scripts aren't all text
export LC_ALL=C
here=$(cd "$(dirname "${BASH_SOURCE[0]}")" && pwd)
program=${1:-$here/../../crates/session_program/out/session_program}
made=$(mktemp -d)
trap 'rm -rf "$made"' EXIT

fail() {
    echo "session: $*" >&2
    exit 1
}

# The number of the first line that two files don't share.
first_difference() {
    local -a one two
    mapfile one < "$1"
    mapfile two < "$2"
    local n=0
    while [ "$n" -lt "${#one[@]}" ] && [ "$n" -lt "${#two[@]}" ] && [ "${one[n]}" = "${two[n]}" ]; do
        n=$((n + 1))
    done
    echo $((n + 1))
}

# A line of a file as it can be printed, with $ for its LF; not every length that a broken line can have.
shown() {
    sed -n "$2p" "$1" | cat -A | cut -c 1-12000
}

# Holds the answers of one side to those of another: name of the script, side, its answers, side, its answers.
hold() {
    cmp -s "$3" "$5" && return
    local n
    n=$(first_difference "$3" "$5" 2> "$made/warnings")
    {
        echo "session: kind ${1%-*}, seed ${1##*-}, line $n is answered differently"
        printf '%13s: %s\n' line "$(shown "$made/scripts/$1.txt" "$n")"
        printf '%13s: %s\n' "$2" "$(shown "$3" "$n")" "$4" "$(shown "$5" "$n")"
    } >&2
    exit 1
}

# Plays one script: name, side, program. A program that hangs is ended.
answers() {
    local status=0
    timeout 20 "$3" < "$made/scripts/$1.txt" > "$made/$2/$1.txt" || status=$?
    [ "$status" = 0 ] || fail "kind ${1%-*}, seed ${1##*-}: $2 ended with status $status"
}

# Each wrong player is found by the lines with answers by hand, and by a script that was drawn.
broken() {
    local script names number=0 found
    rustc -O --edition 2021 --cfg broken --check-cfg 'cfg(broken)' -o "$made/wrong" "$here/session.rs"
    mapfile -t names < <("$made/wrong" faults)
    mkdir "$made/player"
    for script in "$made"/scripts/*.txt; do
        script=${script##*/}
        answers "${script%.txt}" independent "$made/session"
    done
    for name in "${names[@]}"; do
        export SESSION_FAULT=$number
        answers corners-1 player "$made/wrong"
        cmp -s "$made/player/corners-1.txt" "$made/scripts/corners-1.out" && fail "not found by hand: $name"
        found=
        for script in "$made"/scripts/{zeros,starts,bytes,maps,handed}-*.txt; do
            script=${script##*/}
            answers "${script%.txt}" player "$made/wrong"
            cmp -s "$made/player/$script" "$made/independent/$script" || { found=${script%.txt} && break; }
        done
        [ -n "$found" ] || fail "not found by a script that was drawn: $name"
        echo "$name -- $found, line $(first_difference "$made/player/$found.txt" "$made/independent/$found.txt")"
        number=$((number + 1))
    done
    echo "session: ${#names[@]} wrong players found"
}

# How many answers are of a form.
count() {
    grep -cxE "$1" "$made/answers" || true
}

[ "${1:-}" = broken ] || [ -x "$program" ] || fail "there is no program ${program#"$here/../../"}; rt run in crates/session_program builds it"
mkdir "$made/scripts" "$made/program" "$made/independent"
rustc -O --edition 2021 --check-cfg 'cfg(broken)' -o "$made/session" "$here/session.rs"
rustc -O --edition 2021 -o "$made/write-scripts" "$here/scripts.rs"
"$made/write-scripts" "$made/scripts"
if [ "${1:-}" = broken ]; then
    broken
    exit
fi
# document 01's own session
cp "$here/session.txt" "$made/scripts/session-1.txt"
cp "$here/session.out" "$made/scripts/session-1.out"

scripts=0
for script in "$made"/scripts/*.txt; do
    name=${script##*/}
    name=${name%.txt}
    answers "$name" independent "$made/session"
    answers "$name" program "$program"
    if [ -e "$made/scripts/$name.out" ]; then
        hold "$name" independent "$made/independent/$name.txt" "by hand" "$made/scripts/$name.out"
    fi
    hold "$name" program "$made/program/$name.txt" independent "$made/independent/$name.txt"
    scripts=$((scripts + 1))
done

# An input that comes in small pieces has the same answers.
for name in session-1 corners-1 malformed-1 long-1; do
    dd bs=7 status=none < "$made/scripts/$name.txt" | timeout 20 "$program" > "$made/pieces" || true
    hold "$name" "in pieces" "$made/pieces" independent "$made/independent/$name.txt"
done

# One answer for each line, the last one without LF too; grep counts that one as well.
(cd "$made/scripts" && grep -ac '' -- *.txt) > "$made/asked"
(cd "$made/independent" && grep -ac '' -- *.txt) > "$made/answered"
cmp -s "$made/asked" "$made/answered" || fail "not one answer for each line: $(diff "$made/asked" "$made/answered" | head -n 3)"

# Nothing is left out: enough scripts and lines, each refusal, each form of an answer, and no other.
cat "$made"/independent/*.txt > "$made/answers"
lines=$(wc -l < "$made/answers")
[ "$scripts" -ge 300 ] || fail "only $scripts scripts"
[ "$lines" -ge 100000 ] || fail "only $lines lines"
known=0
for form in 'no '{1,2,3,4,5,6,7,8,10}'( [0-3])?' ok done 'bad line' 'frame [0-9]+ new [13]' 'frame [0-9]+ old 0' \
    'resident [0-9]+ 0' 'absent [13]' 'pages [0-9]+' 'free [0-9]+' 'at [0-9]+' bytes 'bytes ([0-9a-f]{2}){1,256}' \
    'regions [0-9]+( [0-9]+ [0-9]+ [0-9]+)*' 'map ([0-9a-f]{8}){11,}'; do
    many=$(count "$form")
    [ "$many" -gt 0 ] || fail "no line is answered: $form"
    known=$((known + many))
done
[ "$known" = "$lines" ] || fail "$((lines - known)) answers have no form that document 01 or 02 gives"
# and new pages, read whole
[ "$(count 'bytes (00){256}')" -gt 100 ] || fail "hardly any page is read that has zeros only"
# and pages handed back
[ "$(count done)" -gt 5000 ] || fail "hardly any page is handed back"
echo "session: $scripts scripts, $lines lines agree"
