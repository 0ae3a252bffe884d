#!/usr/bin/env bash
# Tries ./session as a user meets it: its words, files, log, progress, terminal and statuses. Most of it in a folder with a copy of the script, a fake rt
# and a fake program, so that no proof is waited for; two cases are of the real ones.
set -euo pipefail
here=$(cd "$(dirname "${BASH_SOURCE[0]}")" && pwd)
root=$(cd "$here/../.." && pwd)
bed=$(mktemp -d)
trap 'rm -rf "$bed"' EXIT
cases=0

fail() {
    echo "desk: $*" >&2
    exit 1
}

# Runs a command and keeps its status, output and errors; one that hangs is ended. The limit is far above what any of them takes on a busy machine.
run() {
    status=0
    timeout "${limit:-150}" "$@" > "$bed/out" 2> "$bed/err" || status=$?
}

# Holds the last run to its status, and its output and errors to patterns.
expect() { # CASE STATUS OUTPUT ERRORS
    [ "$status" = "$2" ] || fail "$1: status $status, not $2; errors: $(head -n 9 "$bed/err"); output: $(head -n 9 "$bed/out")"
    # shellcheck disable=SC2053
    [[ $(cat "$bed/out") == $3 ]] || fail "$1: its output is not what it should be: $(head -n 9 "$bed/out")"
    # shellcheck disable=SC2053
    [[ $(cat "$bed/err") == $4 ]] || fail "$1: its errors are not what they should be: $(head -n 9 "$bed/err")"
    cases=$((cases + 1))
}

# What a wrong word or file gives: one line that says what to do.
expect_refusal() { # CASE WORDS
    expect "$1" 2 "" "session: $2: *"
    [ "$(wc -l < "$bed/err")" = 1 ] || fail "$1: more than one line: $(cat "$bed/err")"
}

# What a log that can't be written gives: nothing is proved, and nothing played.
expect_no_log() { # CASE
    expect "$1" 1 "" "session: $bed/target/session.log can't be written*"
    [ ! -e "$bed/proving" ] || fail "$1: rt was started"
}

# Makes a program of standard input.
make_program() { # FILE
    { echo '#!/usr/bin/env bash' && cat; } > "$1"
    chmod +x "$1"
}

# An rt that knows of no proof yet, from standard input: what it does when it is to prove and build.
make_rt() {
    rm -rf "$bed/target/proved"
    { echo '[ "$1" != version ] || exit 0' && cat; } | make_program "$bed/kit/rt"
}

# An rt for which nothing has changed.
make_quick_rt() {
    make_rt << 'END'
echo 'rt: nothing has changed since the last proved build, by out/session_program.stamp, so nothing is checked now'
echo 'rt: running out/session_program; to give it other input, run that file yourself'
END
}

# An rt that is silent at first, then proves some crates, a dozen in half a second; after the first dozen not before the errors of the run have WORDS.
make_slow_rt() { # WORDS CRATES
    { echo "words='$1' crates='${*:2}' number=0" && cat << 'END'; } | make_rt
sleep 3.2
for crate in $crates; do
    echo "rt: chose --jobs 2 for $crate"
    echo 'logic=proved functions=1'
    sleep 0.04
    [ $((number += 1)) != 12 ] || [ -z "$words" ] || until grep -q "$words" ../../err; do sleep 0.1; done
done
echo 'rt: running out/session_program; to give it other input, run that file yourself'
END
}

# The crates of crates.txt that a crate needs, in the order in which rt proves them.
needed() { # CRATE
    python3 - "$1" << 'END'
import sys
lines = [line.split(":") for line in open("crates.txt", encoding="utf-8") if line.strip() and not line.startswith("#")]
uses = {name.split()[0]: used.split() for name, used in lines}
order = []
def visit(name):
    for used in uses[name]:
        if used in uses:
            visit(used)
    order.extend([name] * (name not in order))
visit(sys.argv[1])
print(*order)
END
}

# the real program
real=$PATH
cd "$root"
limit=600 run ./session tests/session/session.txt < /dev/null
expect "document 01's session" 0 "$(cat tests/session/session.out)" "*"

mkdir -p "$bed/kit" "$bed/target" "$bed/crates/session_program"/{src,out} "$bed/other place"
chmod 755 "$bed"
cp -r "$root/session" "$root/tools" "$bed/"
echo 'session_program: io' > "$bed/crates.txt"
touch "$bed/crates/session_program/src/main.rt"
program=crates/session_program/out/session_program
make_program "$bed/fake-program" << 'END'
while read -r line; do
    case $line in
    locale) echo "locale ${LC_ALL-}" ;;
    lost) echo 'session_program: its output could not be written' >&2; exit ;;
    killed) kill -KILL $$ ;;
    *) echo "played $line" ;;
    esac
done
END
cp "$bed/fake-program" "$bed/$program"
echo one > "$bed/calls"
cd "$bed"
PATH=$bed/kit:$PATH
make_quick_rt

# words
run ./session --help < calls
expect "--help" 0 "usage: ./session ?FILE?"$'\n'"*docs/SESSION.md*" ""
run ./session -h < calls
expect "-h" 0 "usage: ./session ?FILE?"$'\n'"*" ""
run ./session calls calls < calls
expect "two words" 2 "" "usage: ./session ?FILE?"$'\n'"*"
run ./session - < calls
expect "-" 0 "played one" ""
run ./session < calls
expect "no word" 0 "played one" ""
cp calls ./-h
run ./session ./-h < /dev/null
expect "a file called -h" 0 "played one" ""

# files
run ./session kit < calls
expect_refusal "a folder" "kit is a folder"
run ./session 'no such' < calls
expect_refusal "no file" "there is no file no such"
run ./session < kit
expect_refusal "a folder as standard input" "/dev/stdin is a folder"
run ./session <&-
expect_refusal "no standard input" "there is no file /dev/stdin"
echo two > "other place/more calls"
ln -s "$bed/session" "other place/s"
cd "other place"
run ./s 'more calls' < /dev/null
expect "a link, and a name with a blank" 0 "played two" ""
cd "$bed"

# rights, which root isn't held to
nobody=
[ "$(id -u)" != 0 ] || nobody='setpriv --reuid=65534 --regid=65534 --clear-groups'
cp calls secret
chmod 000 secret
chmod a-w target
if $nobody test -r "$bed/calls" 2> /dev/null; then
    run $nobody ./session secret < /dev/null
    expect_refusal "a file that can't be read" "secret can't be read"
    echo "touch '$bed/proving'" | make_rt
    run $nobody ./session calls < /dev/null
    expect_no_log "a target that can't be written"
else
    echo "desk: nobody can't read here, so two cases of rights are left out"
fi
chmod u+w target

# the log
echo "touch '$bed/proving'" | make_rt
for place in /dev/full /dev/null "$bed/kit"; do
    ln -sfn "$place" target/session.log
    run ./session calls < /dev/null
    expect_no_log "$place as the log"
done
rm target/session.log
run bash -c '(trap "" XFSZ && ulimit -f 0 && ./session calls 2>&1 < /dev/null) | cat >&2; exit "${PIPESTATUS[0]}"'
expect_no_log "no room for the log"
mv target kept
touch target
run ./session calls < /dev/null
expect_no_log "a file as target"
rm target
mv kept target

# no old program
make_rt << 'END'
echo 'logic=not-proved'
exit 1
END
run ./session calls < /dev/null
expect "no proof" 1 "" "session: session_program could not be built*$bed/target/session.log*"
grep -q '^logic=not-proved' target/session.log || fail "no proof: the log doesn't say why"
echo 'echo "logic=proved functions=1"' | make_rt
run ./session calls < /dev/null
expect "a log that got half of the words" 1 "" "session: session_program could not be built*"
echo 'echo "rt: running out/session_program;" && exit 1' | make_rt
run ./session calls < /dev/null
expect "a status of rt's" 1 "" "session: session_program could not be built*"
mkdir few
for tool in bash env dirname readlink; do
    ln -s "$(command -v "$tool")" few/
done
run env PATH="$bed/few" ./session calls < /dev/null
expect "no rt" 1 "" "session: the Rattle kit's command rt is not on the PATH: README.md *"
rm "$program"
make_quick_rt
run ./session calls < /dev/null
expect "no program" 1 "" "session: session_program could not be built*"
make_rt << 'END'
cp ../../fake-program out/session_program
echo 'rt: running out/session_program;'
END
run ./session calls < /dev/null
expect "a program that went" 0 "played one" ""

# what stands as it was proved is proved no second time; what doesn't is: another program, another file of the crate, another kit
make_rt << 'END'
echo >> ../../proofs
cp ../../fake-program out/session_program
echo 'rt: running out/session_program;'
END
proofs() { # CASE NUMBER
    run ./session calls < /dev/null
    expect "$1" 0 "played one" ""
    [ "$(wc -l < proofs)" = "$2" ] || fail "$1: $(wc -l < proofs) proofs, not $2"
}
proofs "a first proof" 1
proofs "nothing is changed" 1
echo 'echo another' > "$program"
proofs "another program" 2
echo changed > crates/session_program/src/main.rt
proofs "another file" 3
sed -i 's/|| exit 0/|| { echo other \&\& exit; }/' kit/rt
proofs "another kit" 4
proofs "nothing is changed any more" 4
make_rt << 'END'
echo changed again > src/main.rt
echo 'rt: running out/session_program;'
END
run ./session calls < /dev/null
expect "a file that is changed meanwhile" 1 "" "session: session_program could not be built*"

# how rt is run: in the crate's folder, away from the input, and one at a time
make_rt << 'END'
[ "$*" = run ] && [ "${PWD##*/}" = session_program ] && [ -z "$(cat)" ] && mkdir ../alone || exit 1
sleep 0.5
rmdir ../alone
echo 'rt: running out/session_program;'
END
cd "other place"
run env LC_ALL=C.UTF-8 ./s <<< locale
expect "rt's surroundings" 0 "locale C.UTF-8" ""
cd "$bed"
rm -r target/proved
./session calls > first 2>&1 < /dev/null &
run ./session calls < /dev/null
expect "two at once" 0 "played one" ""
wait $! || fail "two at once: the other one failed: $(cat first)"

# the program's end
make_quick_rt
run ./session <<< $'one\nlost\ntwo'
expect "answers lost" 1 "played one" $'session_program: its output could not be written\nsession: answers are lost: *'
run ./session <<< $'one\nkilled\ntwo'
expect "a program killed" 1 "played one" "session: something ended session_program, with status 137: *"
run bash -c './session calls < /dev/null >&-'
expect "a closed output" 1 "" "session: standard output is closed*"
run bash -c 'yes | ./session | head -n 1; exit "${PIPESTATUS[1]}"'
expect "a reader that has enough" 1 "played y" ""

# a terminal: each line is answered before the next one is typed
hint="session: type calls, *docs/SESSION.md*Ctrl-D ends"
run "$here/terminal.py" 'Ctrl-D ends' 'one\n' 'played one' 'two\n' 'played two' '\x04' -- ./session
expect "a terminal" 0 "$hint*played one*played two*" ""
run "$here/terminal.py" ready '\x04' -- bash -c 'echo ready && ./session 2> hint'
expect "the hint's place" 0 $'ready\r' ""
# shellcheck disable=SC2053
[[ $(cat hint) == $hint ]] || fail "the hint's place: it is not on standard error"
run "$here/terminal.py" -- ./session calls
expect "a file at a terminal" 0 $'played one\r' ""
run "$here/terminal.py" 'Ctrl-D ends' 'one\n' 'played one' '\x03' -- ./session
expect "Ctrl-C while it plays" 130 "$hint*played one*" ""

# progress, of as many crates as the program needs
make_rt << 'END'
sleep 60 &
echo $! > ../../prover
wait
END
# like a user's shell, it outlives a session that Ctrl-C ends
make_program shell << 'END'
trap : INT
{ until [ -s prover ]; do sleep 0.1; done && echo started; } &
./session
status=$?
sleep 0.2
! grep -qs sleep "/proc/$(cat prover)/cmdline" || echo 'a prover goes on'
exit "$status"
END
run "$here/terminal.py" started '\x03' -- ./shell
expect "Ctrl-C while it proves" 130 $'started\r\n^C' ""
{
    printf '%s\n' '# NAME: uses' 'c1:' 'c2: c1 bytes' 'unneeded: c1' 'session_program: c3 c22 io' 'c3: c2 c1 c4' 'c4 staticlib: c2' 'c5: c4'
    for n in {6..22}; do
        echo "c$n: c$((n - 1))"
    done
} > crates.txt
make_slow_rt 'session: 1. of 23' $(needed session_program)
run ./session calls < /dev/null
proving="session: proving session_program and all that it needs*$bed/target/session.log"
ten="session: 1? of 23 crates proved, the last one c*; * s"
expect "progress in a file" 0 "played one" "$proving"$'\n'"$ten"$'\n'"session: 2? of 23 crates proved, the last one *; * s"
[ "$(wc -l < err)" = 3 ] || fail "progress in a file: not a line for ten crates: $(cat err)"
cp "$root/crates.txt" .
needed=$(needed session_program)
crates=$(wc -w <<< "$needed")
make_slow_rt "" $needed
run "$here/terminal.py" -- ./session calls
again=$'\r'"session: * of $crates crates proved"
expect "progress at a terminal" 0 "$proving*$again*$again, the last one session_program; * s*played one*" ""

# last, as it needs a program that says so: a full disk
PATH=$real
cd "$root"
limit=600 run bash -c './session tests/session/session.txt > /dev/full'
expect "a full disk" 1 "" "*session_program: its output could not be written*"
echo "desk: $cases cases"
