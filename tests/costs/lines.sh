#!/usr/bin/env bash
# Holds what a line of a session costs to bounds, in instructions by callgrind, which counts the same in every run: session_program takes
# at most so many hundredths of what the same player by hand in C takes, by gcc and by the kit's clang. bench/lines.sh tells where they go.
set -euo pipefail
cd "$(dirname "${BASH_SOURCE[0]}")/../.."

counts=$(bench/lines.sh counts)
read -r ours gcc clang <<< "$counts"

failed=0
hold() { # compiler, instructions, at most so many hundredths
    if [ "$2" -le 0 ] || [ "$ours" -le 0 ] || [ $((ours * 100)) -gt $(($2 * $3)) ]; then
        echo "costs: a session's line takes $ours instructions, more than $3 hundredths of the $2 that C by $1 takes" >&2
        failed=1
    fi
}

# 222 and 236 before W-205: a line that is no page call is compared with one name more, `give`; C by hand switches on the first letter.
hold gcc "$gcc" 225
hold clang "$clang" 238
[ "$failed" = 0 ] || exit 1
echo "costs: a session's line takes $ours instructions, C by gcc $gcc, by clang $clang"
