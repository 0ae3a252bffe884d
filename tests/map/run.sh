#!/usr/bin/env bash
# Holds readers and writers of map files to mapfile.py, which is written from document 02's W-202 and W-203 alone, on the files of files.py:
#     tests/map/run.sh [PROGRAM]    mapfile.py itself, the program mapread and the library through its C entrance (lent.c)
#     tests/map/run.sh by-hand      the C by hand that the calls are measured beside, bench/checked.c, under an address checker
#     tests/map/run.sh broken       the files themselves, on readers and writers that are wrong in one way each
set -euo pipefail
here=$(cd "$(dirname "${BASH_SOURCE[0]}")" && pwd)
cd "$here/../.."
program=crates/mapread/out/mapread
# the room of mapread, and of histories: places and frames
room='4096 4096'
places=130
frames=64
made=$(mktemp -d)
trap 'rm -rf "$made"' EXIT

fail() {
    echo "map: $*" >&2
    exit 1
}

hold() {
    python3 "$here/hold.py" "$@"
}

by_hand() { # OUT SOURCE WORDS..
    gcc -std=gnu11 -Wall -Wextra -I bench -DBY_HAND "${@:3}" -o "$made/$1" "$here/lent.c" "$2"
}

# The C by hand with other words.
other_words() { # OLD NEW
    python3 - "$made/checked.c" "$1" "$2" << 'END' || fail "bench/checked.c has no such words once: $1"
import sys
text = open("bench/checked.c", encoding="utf-8").read()
if text.count(sys.argv[2]) != 1:
    sys.exit(1)
open(sys.argv[1], "w", encoding="utf-8").write(text.replace(sys.argv[2], sys.argv[3]))
END
    by_hand wrong "$made/checked.c" -O1 -w
}

# Some words of the C by hand are others: the program must end with a fault of its own, or answer a file otherwise.
wrong() { # NAME OLD NEW
    local at
    other_words "$2" "$3"
    if (timeout 60 "$made/wrong" < "$made/lines" > "$made/said") 2> "$made/told" && cmp -s "$made/said" "$made/answers"; then
        (timeout 60 "$made/wrong" calls "$places" "$frames" < "$made/calls" > "$made/said") 2> "$made/told" && cmp -s "$made/said" "$made/called" \
            && fail "not found: $1"
        at="a history"
    else
        # the first file that is answered otherwise, or not at all
        at=$(awk 'NR == FNR { said[FNR] = $0; next } said[FNR] != $0 { print FNR; exit }' "$made/said" "$made/answers")
        at=$(sed -n "${at:-1}p" "$made/kinds")
    fi
    echo "$1 -- $at$(grep -oE '^lent(: .*)' "$made/told" | cut -c 5- | head -n 1 || true)"
    found=$((found + 1))
}

# The same of how full a space is: a question is answered otherwise.
wrong_fullness() { # NAME OLD NEW
    other_words "$2" "$3"
    (timeout 60 "$made/wrong" full < "$made/asked" > "$made/said") 2> /dev/null && cmp -s "$made/said" "$made/fullness" && fail "not found: $1"
    echo "$1 -- $(diff "$made/said" "$made/fullness" | grep -c '^<') questions"
    found=$((found + 1))
}

broken() {
    hold write "$made"
    found=0
    wrong_fullness "the second word is told" "word_at(contents, 3 * (size_t)space + 6)" "word_at(contents, 3 * (size_t)space + 5)"
    wrong_fullness "the next space's is told" "word_at(contents, 3 * (size_t)space + 6)" "word_at(contents, 3 * (size_t)space + 9)"
    wrong_fullness "the pool is a space" "if (space >= spaces)" "if (space > spaces)"
    wrong_fullness "contents may lack a byte" "contents_len < 4 * contents_words(spaces)" "contents_len + 1 < 4 * contents_words(spaces)"
    wrong_fullness "all of the file is asked for" "contents_len < 4 * contents_words(spaces)" "contents_len <= 4 * contents_words(spaces)"
    wrong_fullness "65 spaces" "spaces > CORWYSTAL_MOST_SPACES || contents" "spaces > CORWYSTAL_MOST_SPACES + 1 || contents"
    wrong_fullness "no spaces" "spaces == 0 || spaces > CORWYSTAL_MOST_SPACES || contents" "spaces > CORWYSTAL_MOST_SPACES || contents"
    wrong_fullness "2 before 1" "? 0 : word_at(contents, 0);" "? 0 : word_at(contents, 0);
    if (spaces != 0 && space >= spaces)
        return SAY(CORWYSTAL_NO_SPACE, 0, 0);"
    wrong "a page may stand twice" "!adds_place(seen, w, lo + page))" "0)"
    wrong "a page may stand twice behind the first window" "if (!adds_place(seen, w, lo + word_at(file, k)))" "if (0)"
    wrong "a frame may stand twice" "!adds(held, frame) || !adds_place" "(adds(held, frame), 0) || !adds_place"
    wrong "a frame of the pool may stand twice" "if (frame >= frames || !adds(held, frame))" "if (frame >= frames)"
    wrong "a frame may be missing" "pairs + pool != frames)" "pairs + pool > frames)"
    wrong "a page may lie behind its region" "page - start >= many ||" "page < start || page >= pages ||"
    wrong "a page may lie before its region" "page - start >= many ||" "page >= next ||"
    wrong "a region may have no page" "many == 0 ||" ""
    wrong "lengths may be any" "start + many != next ||" ""
    wrong "a body's place is off by a word" "put_row(file, space, body, at" "put_row(file, space, body + 1, at"
    wrong "bodies may lie anywhere" "if (word_at(file, 3 * space + 4) != at || " "if ("
    wrong "third words may be any" "if (word_at(file, 3 * space + 6) != pairs - before)" "if (0)"
    wrong "the pool's third word may be any" "word_at(file, 3 * spaces + 6) != pool ||" ""
    wrong "words may stand after the end" "pool != words - at ||" "pool > words - at || (words = at + pool, 0) ||"
    wrong "bytes may stand after the end" "file_len % 4 != 0 ||" ""
    wrong "products wrap" "(uint64_t)h->spaces * h->pages" "h->spaces * h->pages"
    wrong "any page size" "page != 1u << made.page_shift ||" ""
    wrong "any file whose contents are sound" "    if (file_len % 4 != 0 || !is_sound(file, words, spaces, pages, frames))" "    if (0)"
    wrong "pairs are written newest first" "size_t p = stack[a + j];" "size_t p = stack[a + n - 1 - j];"
    wrong "the pool is written from its end on" "        put_word(file, at, frame);
        if" "        put_word(file, end - 1 - (at - (end - head->many)), frame);
        if"
    wrong "the pool's first frame is left out of its links" "return first;" "return last;"
    wrong "an older head is left" "    *head = made;" "    made.many = head->many, *head = made;"
    wrong "13 comes a byte late" "if (file_len < bytes)" "if (file_len + 1 < bytes)"
    wrong "a refused reading has stored" "    if (file_len % 4 != 0 ||" "    count[0] = 0;
    if (file_len % 4 != 0 ||"
    wrong "the frames of a region aren't linked" "word_at(file, at + 1);
            link[frame] = newest;" "word_at(file, at + 1);"
    wrong "the index has no upper layers" "    set_layers(index, t);" ""
    wrong "the top layer is left out" "if (t <= 4096)
        return;
    for (size_t at = 0; at < middle" "return;
    for (size_t at = 0; at < middle"
    wrong "counts that were there stay" "    memset(count, 0, t * sizeof *count);" ""
    wrong "starts that were there stay" "    memset(index, 0, index_words(t) * sizeof *index);" ""
    wrong "the pool is read with fresh frames behind it" "0, 0, frames};" "0, 0, 0};"
    echo "map: $found wrong readers, writers and answers of how full found"
}

case ${1:-gate} in
by-hand)
    by_hand by_hand bench/checked.c -O1 -g -fsanitize=address,undefined
    hold lines "$made/by_hand"
    hold calls "$made/by_hand"
    hold full "$made/by_hand"
    ;;
broken) broken ;;
*)
    [ $# = 0 ] || program=$1
    [ -x "$program" ] || fail "there is no program $program; rt run in crates/mapread builds it"
    hold self
    # shellcheck disable=SC2086 # two words
    hold each "$program" $room
    hold spaces "$program"
    gcc -std=gnu11 -O2 -Wall -Wextra -o "$made/lent" "$here/lent.c" target/bindings/libcorwystal.a
    hold lines "$made/lent"
    hold calls "$made/lent"
    hold full "$made/lent"
    ;;
esac
