#!/usr/bin/env bash
# Holds crates/codes_program/stdout to document 01's session, its answers turned into numbers, and to the answers that follow
# from it by hand.
set -euo pipefail
here=$(cd "$(dirname "${BASH_SOURCE[0]}")" && pwd)
kept=$here/../../crates/codes_program/stdout
made=$(mktemp -d)
trap 'rm -rf "$made"' EXIT

# Three numbers an answer: its kind from 16 on, or the number of its refusal; a value; the index words.
awk '
$1 == "ok" { print 16, 0, 0, "" }
$1 == "frame" && $3 == "old" { print 17, $2, 0, "" }
$1 == "frame" && $3 == "new" { print 18, $2, $4, "" }
$1 == "resident" { print 19, $2, 0, "" }
$1 == "absent" { print 20, 0, $2, "" }
$1 == "pages" { print 21, $2, 0, "" }
$1 == "no" { print $2, 0, $3 + 0, "" }
' "$here/../session/session.out" > "$made/stdout"

# The pool is 0, 2, 1: a write over the border of pages 1 and 2 takes frames 0 and 2; two reads of it, the first a byte
# early; the one region; the frame that is left; where the write's second byte stands; then three codes that are no calls.
printf '%s \n' "16 0 0" "24 6 0" "24 6 0" "25 1 0" "22 1 0" "23 255 0" "0 0 0" "0 0 0" "0 0 0" >> "$made/stdout"
# Then the map, 72 bytes: one too few, as many; cut short, read back; the frame that is left, the same bytes read; a part beyond the buffer.
printf '%s \n' "13 0 0" "26 72 0" "12 0 0" "16 0 0" "22 1 0" "24 6 0" "0 0 0" >> "$made/stdout"
# Then hand-backs, kind 14, where pages 1 and 2 have frames 0 and 2: page 1, again, a page beyond the space, a space of no 32 bits. The pool is
# 0, 1: two frames are left, page 5 takes frame 0, and a release gives back two pages.
printf '%s \n' "16 0 0" "10 0 0" "3 0 0" "0 0 0" "22 2 0" "18 0 1" "21 2 0" >> "$made/stdout"
# The map's words, as four bytes each: the sizes, a row for the space and one for the pool, the region with its two pages, the pool.
words=(1 8 3 256  10 7 2  17 1 1  0 8 2 1 0 2 2  1)
map=$(for word in "${words[@]}"; do printf ' %d' $((word % 256)) $((word / 256)) 0 0; done)
# Two numbers of the replies, the bytes around what was read and the records around the one region stay.
printf '7 7 %s%s \n%s \n' "104 101 108 108 111 33 0 0 104 101 108 108 111 33 9 9" "$map" "5 5 5 0 8 2 5 5 5 5 5 5" >> "$made/stdout"

if ! diff "$made/stdout" "$kept" > "$made/differences"; then
    echo "codes: crates/codes_program/stdout is not what document 01 gives (< the document, > the file):" >&2
    head -n 20 "$made/differences" >&2
    exit 1
fi
echo "codes: $(wc -l < "$kept") lines agree"
