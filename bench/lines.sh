#!/usr/bin/env bash
# Counts what a line of a session costs, in instructions by callgrind: session_program beside player.c by gcc and by the kit's clang,
# on one script of 20,000 lines from a fixed seed. What a program spends on an empty script is taken off. Then, by function, where
# those of session_program go. `bench/lines.sh counts` prints the three counts only, and holds no answers to each other but the script's.
set -euo pipefail
cd "$(dirname "${BASH_SOURCE[0]}")/.."
program=crates/session_program/out/session_program
lines=20000
made=$(mktemp -d)
trap 'rm -rf "$made"' EXIT

fail() {
    echo "lines: $*" >&2
    exit 1
}

# Compiles the player: its file, then the compiler. The C is preprocessed by gcc for both, as the kit's clang has no headers.
player() {
    local unit objects=() file=$1
    shift
    for unit in player method; do
        gcc -std=gnu11 -E "bench/$unit.c" -o "$made/$unit.i"
        "$@" -std=gnu11 -O3 -c "$made/$unit.i" -o "$file-$unit.o"
        objects+=("$file-$unit.o")
    done
    gcc -Wl,-z,now -o "$file" "${objects[@]}"
}

# The instructions of a program on a script, with a profile beside it.
instructions() { # PROGRAM SCRIPT PROFILE
    valgrind --tool=callgrind --callgrind-out-file="$3" "$1" < "$2" 2> "$made/log" > "$made/answers" || fail "$(cat "$made/log")"
    sed -n 's/^==[0-9]*== Collected : //p' "$made/log"
}

# The same a line, without what an empty script costs.
a_line() { # PROGRAM PROFILE
    local all none
    none=$(instructions "$1" /dev/null "$made/none")
    all=$(instructions "$1" "$made/script" "$2")
    cmp "$made/answers" "$made/expected" >&2 || fail "${1##*/} answers differently"
    echo $(((all - none) / lines))
}

[ -x "$program" ] || fail "there is no $program; tools/prove session_program target/session.log lines builds it"
player "$made/by-gcc" gcc -Wall -Wextra
player "$made/by-clang" "$(dirname "$(rt doc)")/toolchain/bin/clang" --no-default-config
if [ "${1:-}" != counts ]; then
    for by in gcc clang; do
        tests/session/run.sh "$made/by-$by" > "$made/agreed"
        echo "player.c by $by: $(cat "$made/agreed")"
    done
fi
rustc -O --edition 2021 -o "$made/write-scripts" tests/session/scripts.rs
"$made/write-scripts" --million "$made/million"
head -n "$lines" "$made/million" > "$made/script"
"$made/by-gcc" < "$made/script" > "$made/expected"

ours=$(a_line "$program" "$made/profile")
gcc=$(a_line "$made/by-gcc" "$made/by-gcc.profile")
clang=$(a_line "$made/by-clang" "$made/by-clang.profile")
if [ "${1:-}" = counts ]; then
    echo "$ours $gcc $clang"
    exit 0
fi
ratio() {
    printf '%d.%02d' $((ours / $1)) $((ours % $1 * 100 / $1))
}
echo "instructions a line: session_program $ours; player.c by gcc $gcc, by the kit's clang $clang: $(ratio "$gcc") x and $(ratio "$clang") x"
echo "session_program by function, its start among them:"
callgrind_annotate --show-percs=no --threshold=98 "$made/profile" |
    awk -v lines="$lines" '/file:function/ { on = 1; next } on && /^ *[0-9]/ {
        cost = $1; gsub(",", "", cost); sub(/^[^:]*:/, "", $2); printf "%8.1f  %s\n", cost / lines, $2
    } on && /^$/ { exit }'
