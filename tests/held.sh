#!/usr/bin/env bash
# Holds what a program of the repository wrote, crates/CRATE/stdout, to what tests/NAME/expected.rs writes: held.sh CRATE NAME SOURCE.
set -euo pipefail
crate=$1
name=$2
source=$3
here=$(cd "$(dirname "${BASH_SOURCE[0]}")" && pwd)
kept=$here/../crates/$crate/stdout
made=$(mktemp -d)
trap 'rm -rf "$made"' EXIT

rustc -O --edition 2021 -o "$made/expected" "$here/$name/expected.rs"
"$made/expected" > "$made/stdout"
if ! diff "$made/stdout" "$kept" > "$made/differences"; then
    echo "$name: crates/$crate/stdout is not what $source gives (< $source, > the file):" >&2
    head -n 20 "$made/differences" >&2
    exit 1
fi
echo "$name: $(wc -l < "$kept") lines agree"
