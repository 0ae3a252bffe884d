#!/usr/bin/env bash
# Holds what calls cost to the aims of docs/MEASUREMENTS.md (hold.py, which has the bounds), in instructions by callgrind, which counts the same in every
# run: a release costs the same whatever its region, and each call stays near the same work by hand in C, by gcc and by clang. bench/run has all figures.
set -euo pipefail
cd "$(dirname "${BASH_SOURCE[0]}")/../.."
made=$(mktemp -d)
trap 'rm -rf "$made"' EXIT

# callgrind counts each byte of the processor's block store as an instruction: memset is to use vector stores at any length.
counted() { # FOLDER PROGRAM WORDS..
    mkdir "$1"
    GLIBC_TUNABLES=glibc.cpu.x86_rep_stosb_threshold=0x40000000 valgrind --tool=callgrind --collect-atstart=no --compress-strings=no --compress-pos=no \
        --callgrind-out-file="$1/dump" "${@:2}" > "$1.log" 2>&1 || {
        cat "$1.log" >&2
        exit 1
    }
}

bindings/library
bench/build "$made" target/bindings/libcorwystal.a check count workload maps
"$made/check"
"$made/maps" check
counted "$made/counts" "$made/count"
counted "$made/some" "$made/workload" some 100000
counted "$made/mapped" "$made/maps" count
python3 tests/costs/hold.py "$made/counts" "$made/some" "$made/mapped"
bash tests/costs/lines.sh
