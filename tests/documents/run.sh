#!/usr/bin/env bash
# Holds the documents to the repository: lines, files, names and commands (check.py).
#     tests/documents/run.sh            for the gate, some seconds once target/ is built
#     tests/documents/run.sh broken     the check itself, on copies of the documents with one fault each
# shellcheck disable=SC2016 # the backticks are Markdown's
set -euo pipefail
here=$(cd "$(dirname "${BASH_SOURCE[0]}")" && pwd)
cd "$here/../.."
if [ $# -eq 0 ]; then
    exec python3 tests/documents/check.py
fi
if [ "$*" != broken ]; then
    echo "usage: tests/documents/run.sh [broken]" >&2
    exit 2
fi
made=$(mktemp -d)
trap 'rm -rf "$made"' EXIT
copy=$made/copy
faults=0

fail() {
    echo "documents: $*" >&2
    exit 1
}

fresh_copy() {
    rm -rf "$copy"
    cp -r "$made/documents" "$copy"
}

# The faults of the copy, in a file.
check() {
    python3 tests/documents/check.py --dry "$copy" > "$made/found" 2>&1 || true
}

found() { # FILE LINE WHAT
    check
    grep -qF -- "$1:$2: $3" "$made/found" || fail "not found: $1:$2: $3; see why check.py misses it. It found: $(head -n 5 "$made/found")"
    faults=$((faults + 1))
}

add() { # FILE LINES..
    printf '\n' >> "$copy/$1"
    printf '%s\n' "${@:2}" >> "$copy/$1"
}

# A fault in lines after a document's last, told of the last one.
fault() { # FILE WHAT LINES..
    fresh_copy
    add "$1" "${@:3}"
    found "$1" "$(wc -l < "$copy/$1")" "$2"
}

# Lines in which nothing is wrong.
quiet() { # FILE LINES..
    fresh_copy
    add "$@"
    check
    diff <(grep -E '^[^ ]+:[0-9]+: ' "$made/before") <(grep -E '^[^ ]+:[0-9]+: ' "$made/found") > "$made/more" \
        || fail "found, though nothing is wrong with: ${*:2}; $(tail -n 1 "$made/more")"
}

# A change of a document's own lines, told of the last line that is like LINE.
change() { # FILE SED-SCRIPT LINE WHAT
    fresh_copy
    sed -i "$2" "$copy/$1"
    cmp -s "$made/documents/$1" "$copy/$1" && fail "$1 has no such line any more: $2; choose another fault for run.sh"
    found "$1" "$(grep -nE "$3" "$copy/$1" | tail -n 1 | cut -d : -f 1)" "$4"
}

mkdir "$made/documents"
find . \( -name .git -o -path ./target \) -prune -o -name '*.md' -print0 | xargs -0 cp --parents -t "$made/documents"
fresh_copy
check
cp "$made/found" "$made/before"

long=$(printf 'word %.0s' {1..32})x
landing=$(find docs/landings -name '*.md' | head -n 1)
fault README.md '161 characters' "$long"
fault "$landing" '161 characters' "$long"
fault docs/KERNEL.md '161 characters' '<!-- calls -->' "| ${long:2}"
fault docs/MEASUREMENTS.md '161 characters' '<!-- end -->' "| ${long:2}"
quiet docs/MEASUREMENTS.md '<!-- a -->' "| $long | $long |" '<!-- end -->'
quiet README.md "${long% x}"

fault README.md 'docs/NOWHERE.md: there is no such file' 'See `docs/NOWHERE.md`.'
fault docs/GUIDE.md 'docs/NOWHERE.md: there is no such file' 'As docs/NOWHERE.md has it.'
fault docs/GUIDE.md 'measurements/none.svg: there is no such file' '![A plot](measurements/none.svg)'
fault docs/GUIDE.md 'machine/specs/Nothing.antt: there is no such file' '`machine/specs/Nothing.antt`'
fault docs/GUIDE.md 'specs/Holds.antt: there is no such file or folder in the crates places' '| `places` | `specs/Holds.antt` |'
fault docs/GUIDE.md 'tests/nothing: there is no such file' 'Over a line end: `bash' 'x`; and `tests/nothing`'
fault docs/SESSION.md 'tests/session/nothing.txt: there is no such file' '    ./session tests/session/nothing.txt'
fault docs/KERNEL.md '/somewhere/x.c: a path of one machine' '`/somewhere/x.c`'
fault docs/GUIDE.md '#nothing: there is no such heading' '[Nothing](#nothing)'
fault docs/GUIDE.md '#nothing: there is no such heading' '[Nothing](KERNEL.md#nothing)'
quiet docs/GUIDE.md '[How to](#how-to-change-things), [answers](KERNEL.md#answers)'
quiet docs/GUIDE.md '`target/bindings/session_c`, `crates/session_program/out/session_program`, `crates/*/specs`, `crates/NAME/specs`, `promise/specs/Did.antt`'
quiet docs/GUIDE.md '`Did.antt`, [plot](measurements/copies.svg)'

fault docs/GUIDE.md 'demand_4: no source has this name' 'By `demand_4`.'
fault docs/DECISIONS.md 'touching::touch_twice: no source' '`touching::touch_twice`'
fault docs/DECISIONS.md 'Did.splice: no source' '`Did.splice`'
fault docs/DECISIONS.md 'printing::release_did: no source' '`printing::release_did`'
fault docs/DECISIONS.md 'demand_3: promise/specs/Did.antt has no such name' '`Did`, `demand_3` (promise/specs/Did.antt)'
fault docs/KERNEL.md 'corwystal_free: this name is gone' '`corwystal_free`'
fault docs/KERNEL.md 'NO_TIME: no source' '`NO_TIME`'
quiet docs/GUIDE.md '`demand_3`, `touching::touch`, `Did.asks`, `NO_FRAME`, `&Head`, `007`, `-O3`, `$PATH`, `bad line`'

fault docs/KERNEL.md 'bindings/nothing: a command that' '    bindings/nothing'
fault docs/SESSION.md './session --nothing: a command that' '    ./session --nothing'
fault docs/GUIDE.md 'tests/nothing/run.sh: there is no such program' '    tests/nothing/run.sh     # nothing'
fault examples/board/README.md 'examples/board/frames.c day: a command that' '```' 'examples/board/frames.c day'
quiet README.md '    $ ./session tests/session/session.txt    # a comment' '    bash tests/session/run.sh' '    no/program of ours'

change README.md '/^    session_program  /d' '^## The crates' 'session_program: a crate that the list below has not'
change README.md '/^    sequence  /p' '^    sequence  ' 'sequence: a crate that the list has twice'
change README.md 's/^    session   /    lections  /' '^    lections  ' 'lections: no crate of crates.txt'
change README.md '/^    serving  /{h;d};/^    sequence  /{p;x}' '^    serving  ' 'serving: it uses listing, which stands above it'
echo "documents: $faults faults found, each in a copy of its own"
