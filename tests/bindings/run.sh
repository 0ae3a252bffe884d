#!/usr/bin/env bash
# Holds the C headers and the Rust module to the library, in the repository and installed elsewhere: the same functions, document 01's session in both,
# sizes, every method, refusals' texts, new pages that read as zeros; that an answer that is ignored is warned of; that bindings/build builds what changed and
# nothing else.
set -euo pipefail
here=$(cd "$(dirname "${BASH_SOURCE[0]}")" && pwd)
cd "$here/../.."
made=$(mktemp -d)
trap 'rm -rf "$made"' EXIT
unset DESTDIR CORWYSTAL_LIB_DIR

fail() {
    echo "bindings: $*" >&2
    exit 1
}

have() { command -v "$1" > /dev/null; }

# Two texts, line by line: what is compared, then the texts; < is the first.
same() {
    diff <(echo "$2") <(echo "$3") > "$made/differences" || fail "$1 differ: $(cat "$made/differences")"
}

bindings/build
library=target/bindings/libcorwystal.a
session=$(cat tests/session/session.out)
strict='-Wall -Wextra -Werror -pedantic'
languages=('gcc -std=c11 -x c' 'gcc -std=c2x -x c' 'g++ -std=c++17 -x c++')

# The library defines what the header declares, no more and no less, and so does the Rust module.
functions() { grep -oE 'corwystal_[a-z_]+\(' | tr -d '(' | sort -u; }
defined=$(nm -g --defined-only "$library" | awk '$2 == "T" { print $3 }' | sort)
same "functions of the library and of corwystal.h" "$defined" "$(grep -E '^corwystal_(answer|needs) ' bindings/c/corwystal.h | functions)"
same "functions of the library and of corwystal.rs" "$defined" "$(grep -E 'pub (safe )?fn' bindings/rust/corwystal.rs | functions)"

# The headers, and the example with its initialisers, are C11, C23 and C++17, without a warning.
for language in "${languages[@]}"; do
    for file in bindings/c/{corwystal.h,corwystal_board.h,session.c}; do
        # shellcheck disable=SC2086 # several words
        $language $strict -I bindings/c -fsyntax-only "$file" || fail "$file: $language warns of it"
    done
done

# An answer that is ignored is warned of, whichever function it is of.
ignoring=$(grep -nE '^    corwystal_[a-z_]+\(' "$here/ignored.c")
same "functions of the headers and of ignored.c" "$(cat bindings/c/*.h | functions)" "$(grep -oE '    corwystal_[a-z_]+\(' <<< "$ignoring" | functions)"
for language in "${languages[@]}"; do
    compile="$language -Wall -Wextra -pedantic -I bindings/c -c -o $made/ignored.o"
    $compile "$here/ignored.c" 2> "$made/told" || fail "ignored.c does not compile: $(cat "$made/told")"
    same "lines that ignore an answer and those that $language warns of" "$(cut -d : -f 1 <<< "$ignoring")" \
        "$(sed -nE 's/^[^:]*ignored\.c:([0-9]+):.*\[-Wunused-result\]$/\1/p' "$made/told" | sort -un)"
    ! $compile -Werror=unused-result "$here/ignored.c" 2> "$made/told" || fail "$language -Werror=unused-result accepts an ignored answer"
done
rustc --edition 2024 --crate-type lib --error-format short --extern corwystal=target/bindings/libcorwystal.rlib --out-dir "$made" "$here/ignored.rs" \
    2> "$made/told" || fail "ignored.rs does not compile: $(cat "$made/told")"
same "lines that ignore an answer and those that rustc warns of" "$(grep -nE '^    .*;$' "$here/ignored.rs" | cut -d : -f 1)" \
    "$(sed -nE 's/^[^:]*ignored\.rs:([0-9]+):.*must be used.*/\1/p' "$made/told" | sort -un)"

# The session from both; sizes and version; each refusal's text, the same in both; new pages; every method.
same "document 01's session and the C example's" "$session" "$(target/bindings/session_c)"
same "document 01's session and the Rust example's" "$session" "$(target/bindings/session_rust)"
for test in sizes texts zeros; do
    # shellcheck disable=SC2086 # several words
    gcc -std=c11 -O2 $strict -I bindings/c -o "$made/$test" "$here/$test.c" "$library"
done
"$made/sizes"
"$made/zeros"
"$made/texts" > "$made/in_c"
rustc --edition 2024 -O -D warnings -L target/bindings -l static=corwystal -o "$made/module" "$here/module.rs"
"$made/module" > "$made/in_rust"
same "refusals' texts in C and in Rust" "$(cat "$made/in_c")" "$(cat "$made/in_rust")"
rustc --edition 2024 -O -D warnings --extern corwystal=target/bindings/libcorwystal.rlib -o "$made/calls" "$here/calls.rs"
"$made/calls"

# On memory that nobody has written the answers are the same; memcheck minds it, and with the suppressions it doesn't.
# shellcheck disable=SC2086 # several words
gcc -std=c11 -O2 $strict -I bindings/c -o "$made/unwritten" "$here/unwritten.c" "$library"
"$made/unwritten" || fail "other answers on memory that nobody has written"
! valgrind -q --error-exitcode=3 "$made/unwritten" > "$made/told" 2>&1 ||
    fail "memcheck doesn't mind words that were never written: the suppressions are not tested"
valgrind -q --error-exitcode=3 --suppressions=bindings/c/valgrind.supp "$made/unwritten" > "$made/told" 2>&1 ||
    fail "memcheck minds with the suppressions, too: $(head -n 5 "$made/told")"

# ---- bindings/build, in a copy whose library stands as it is

copy=$made/copy
products=("$copy"/target/bindings/{session_c,libcorwystal.rlib,session_rust})
mkdir -p "$copy/target/bindings"
cp -r bindings "$copy/"
cp "$library" "$copy/target/bindings/"
printf '#!/bin/sh\n' > "$copy/bindings/library"

# Holds what a build makes to the steps that it should: which build, its steps.
builds() {
    "$copy/bindings/build" > "$made/built" 2>&1 || fail "$1 goes wrong: $(cat "$made/built")"
    same "the steps that $1 should take and those that it takes" "$2" "$(sed -nE 's/^bindings: (.*): building .*/\1/p' "$made/built")"
}

builds "a first build" $'C example\nRust module\nRust example'
times=$(stat -c '%n %i %y' "${products[@]}")
builds "a second build" ""
grep -qx 'bindings: all is up to date' "$made/built" || fail "a second build does not say that all is up to date: $(cat "$made/built")"
same "products before and after a second build" "$times" "$(stat -c '%n %i %y' "${products[@]}")"
echo '/* longer */' >> "$copy/bindings/c/corwystal.h"
builds "a build with another header" "C example"
echo 'pub const LONGER: u32 = 1;' >> "$copy/bindings/rust/corwystal.rs"
builds "a build with another module" $'Rust module\nRust example'
echo >> "${products[0]}"
builds "a build with another file in a product's place" "C example"
ar rcs "$copy/target/bindings/libcorwystal.a" "$made/ignored.o"
builds "a build with another library" $'C example\nRust module\nRust example'

# A search path without a command: a folder that has it gives way to one with links to all else there.
path_without() {
    local folder folders=() entry gone=$made/without
    IFS=: read -ra folders <<< "$PATH"
    for folder in "${folders[@]}"; do
        if [ -e "$folder/$1" ]; then
            mkdir -p "$gone"
            for entry in "$folder"/*; do
                [ "${entry##*/}" = "$1" ] || ln -sf "$entry" "$gone/"
            done
            folder=$gone
        fi
        printf '%s:' "$folder"
    done
}
rm "${products[@]}"
PATH=$(path_without rustc) builds "a build without rustc" "C example"
grep -q 'Rust: LEFT OUT' "$made/built" || fail "a build without rustc does not say that the Rust part is left out: $(cat "$made/built")"

# ---- bindings/install

# How it ends with wrong words: status, words it must say, words it gets.
refuses() {
    local status=0
    bindings/install "${@:3}" > "$made/told" 2>&1 || status=$?
    if [ "$status" != "$1" ] || ! grep -qF -- "$2" "$made/told"; then
        fail "bindings/install ${*:3}: status $status instead of $1, or not said: $2: $(cat "$made/told")"
    fi
}
refuses 2 'usage: bindings/install PREFIX'
refuses 2 'usage: bindings/install PREFIX' "$made/one" "$made/two"
refuses 1 'must be a full path' somewhere
refuses 1 'choose another' "$made/a blank"
: > "$made/file"
refuses 1 'choose another PREFIX' "$made/file"

prefix=$made/prefix
pc=$prefix/lib/pkgconfig/corwystal.pc
listed() { (cd "$1" && find . -type f | sort); }
mkdir "$prefix"
mkdir -m 2770 "$prefix/lib"
bindings/install "$prefix" > /dev/null
same "modes of a folder before and after" 2770 "$(stat -c %a "$prefix/lib")"
# a PREFIX in the temporary folder: a fault must not install anything for real
later=$made/later
DESTDIR=$made/stage bindings/install "$later" > /dev/null
[ ! -e "$later" ] || fail "bindings/install with DESTDIR writes outside it"
same "files in PREFIX, and with DESTDIR" "$(listed "$prefix")" "$(listed "$made/stage$later")"
same "prefix, and the one that is told with DESTDIR" "$later" "$(sed -n 's/^prefix=//p' "$made/stage$later/lib/pkgconfig/corwystal.pc")"
version=$(sed -nE 's/^#define CORWYSTAL_VERSION "(.*)"/\1/p' "$prefix/include/corwystal.h")
same "versions of the header and of the crate" "$version" "$(sed -nE 's/^version = "(.*)"/\1/p' "$prefix/share/corwystal/rust/Cargo.toml")"
same "versions of the header and for pkg-config" "$version" "$(sed -n 's/^Version: //p' "$pc")"

# The C example beside nothing of the repository's: by pkg-config, or by the variables of its file.
variable() { sed -n "s/^$1=//p" "$pc"; }
if have pkg-config; then
    flags=$(PKG_CONFIG_PATH=$prefix/lib/pkgconfig pkg-config --cflags --libs corwystal)
else
    flags=$(sed -nE 's/^(Cflags|Libs): //p' "$pc" | sed -e "s|\${includedir}|$(variable includedir)|" -e "s|\${libdir}|$(variable libdir)|" \
        -e "s|\${prefix}|$(variable prefix)|g")
fi
cp bindings/c/session.c "$made/"
# shellcheck disable=SC2086 # several words
gcc -std=c11 $strict -o "$made/session_c" "$made/session.c" $flags
same "document 01's session and that of C over the installed library" "$session" "$("$made/session_c")"

# The Rust example over the installed crate, whose library is named or lies where it was installed; and the crate's own example.
crate() {
    local user=$made/user
    mkdir -p "$user"
    cp bindings/rust/session.rs "$user/main.rs"
    printf '[package]\nname = "user"\nedition = "2024"\n\n[[bin]]\nname = "user"\npath = "main.rs"\n\n[dependencies]\ncorwystal = { path = "%s" }\n' \
        "$prefix/share/corwystal/rust" > "$user/Cargo.toml"
    export CARGO_TARGET_DIR=$made/cargo RUSTFLAGS='-D warnings'
    local run=(cargo run --quiet --offline --manifest-path "$user/Cargo.toml")
    same "document 01's session and that of Rust over a named library" "$session" "$(CORWYSTAL_LIB_DIR=$prefix/lib "${run[@]}")"
    same "document 01's session and that of Rust over the installed library" "$session" "$("${run[@]}")"
    ! CORWYSTAL_LIB_DIR=$made/nowhere "${run[@]}" > "$made/told" 2>&1 || fail "the crate is built without a library"
    grep -q 'run bindings/library' "$made/told" || fail "the crate without a library doesn't say what to do: $(cat "$made/told")"
    cargo test --quiet --offline --manifest-path "$prefix/share/corwystal/rust/Cargo.toml" > "$made/told" 2>&1 ||
        fail "the crate's own test: $(cat "$made/told")"
    grep -q '^test result: ok. 1 passed' "$made/told" || fail "the crate's example is not run: $(cat "$made/told")"
}
if have cargo; then
    crate
else
    echo "bindings: LEFT OUT: the crate, since there is no cargo"
fi
echo "bindings: document 01's session from C and from Rust, here and installed; $(wc -l <<< "$defined") functions, version $version"
