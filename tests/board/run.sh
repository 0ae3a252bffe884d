#!/usr/bin/env bash
# Runs the collector board of examples/board under emulation: an interrupt at each instruction of each call, and a day of readings with one in each call. Both
# are tried on libraries that no kernel can have, where they must go wrong.
#     tests/board/run.sh            for the gate, some twenty seconds; QEMU is installed if it can be, else this is left out and says so
#     tests/board/run.sh broken     the day itself, on boards that are wrong in one way each (broken.c)
set -euo pipefail
here=$(cd "$(dirname "${BASH_SOURCE[0]}")" && pwd)
cd "$here/../.."
made=$(mktemp -d)
trap 'rm -rf "$made"' EXIT

fail() {
    echo "board: $*" >&2
    exit 1
}

have() { command -v "$1" > /dev/null; }

install_qemu() {
    [ "$(id -u)" = 0 ] && have apt-get || return 0
    export DEBIAN_FRONTEND=noninteractive
    timeout 120 apt-get update > "$made/install" 2>&1 || true
    timeout 300 apt-get install -y --no-install-recommends qemu-system-x86 >> "$made/install" 2>&1 || true
}

have qemu-system-x86_64 || install_qemu
for program in qemu-system-x86_64 python3; do
    if ! have "$program"; then
        echo "board: LEFT OUT: there is no $program, and it could not be installed here"
        exit 0
    fi
done

broken() {
    local faults=("writes into the next gauge's space" "says done and stores nothing" "reads one reading late" "leaves a released region's count"
        "loses a frame" "leaves in a new page what its frame held" "clears a page that is no new one") number=0 fault
    bindings/library
    for fault in "${faults[@]}"; do
        number=$((number + 1))
        examples/board/build target/bindings/libcorwystal.a "$made/kernel" -DFAULT="$number" "$here/broken.c" \
            -Wl,--wrap=corwystal_write,--wrap=corwystal_read,--wrap=corwystal_release,--wrap=corwystal_touch
        python3 examples/board/host.py "$made/kernel" day > "$made/found" && fail "not found: a board that $fault"
        echo "$fault -- $(sed -n 's/^    //p' "$made/found" | head -n 1)"
    done
    echo "board: $number wrong boards found"
}

if [ "${1:-}" = broken ]; then
    broken
    exit 0
fi

examples/board/run gate > "$made/good" || {
    grep -vE ', 0 wrong, 0 otherwise wrong$' "$made/good" >&2
    exit 1
}
# The stack and the instructions that were met stay within what docs/KERNEL.md tells of each call.
awk '
    FNR == NR && /<!-- calls -->/, /<!-- end -->/ {
        gsub(/[ ,]/, "")
        split($0, cell, "|")
        stack[cell[2]] = cell[3]
        most[cell[2]] = cell[4]
    }
    FNR == NR { next }
    /^scene / {
        split($0, part, /: |, /)
        call = substr(part[1], 7)
        scenes++
        if (!(call in stack) || part[4] + 0 > stack[call] + 0 || (most[call] != "-" && part[3] + 0 > most[call] + 0)) {
            print "board: docs/KERNEL.md tells less than was met: " $0
            bad = 1
        }
    }
    END { exit bad || !scenes }' docs/KERNEL.md "$made/good" >&2 || fail "the numbers of docs/KERNEL.md"

# The tests find what they are for.
bash tests/careless.sh
examples/board/run sweep target/ordinary/libcorwystal.a > "$made/bad" 2>&1 && fail "the sweep finds nothing wrong with the ordinary library"
careless=target/careless/libcorwystal.a
examples/board/run sweep "$careless" > "$made/bad" 2>&1 && fail "the sweep finds nothing wrong with the careless library"
# An interrupt at each of the careless instructions makes the two calls go wrong, and no other call does.
for scene in 'release: ' 'look: at a resident page'; do
    grep -qE "^scene $scene: .* 302 wrong, [1-9]" "$made/bad" || fail "the sweep doesn't find what is wrong with the careless library: scene $scene"
done
if grep -E '^scene' "$made/bad" | grep -vE '^scene (release|look):' | grep -vE ', 0 wrong, 0 otherwise wrong$' > "$made/more"; then
    fail "the sweep finds more wrong with the careless library than there is: $(head -n 3 "$made/more")"
fi
examples/board/build "$careless" "$made/kernel"
# When a day's interrupt hits a careless instruction is left to chance, and now and then a day passes without: then another seed's day is tried.
found=
for seed in 1 2 3 4 5; do
    python3 examples/board/host.py "$made/kernel" day --aim --seed "$seed" --options vectors > "$made/bad" 2>&1 || { found=$seed && break; }
done
[ -n "$found" ] || fail "the day finds nothing wrong with the careless library, by five seeds"

grep -vE '^scene' "$made/good"
echo "board: the library as rt lib builds it is found wrong, and one with a release and a look that are careless of interrupts"
