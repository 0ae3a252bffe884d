#!/usr/bin/env bash
# Holds the library's object code to what a kernel can have (inspect.py), and docs/KERNEL.md to the stack and the instructions of each call, read off the
# code and measured (met.c). The inspection itself is tried on libraries that no kernel can have (tests/careless.sh), and on small pieces with one fault each.
#     tests/object/run.sh          for the gate, some twenty seconds; needs gcc, valgrind and python3
#     tests/object/run.sh write    writes the table of docs/KERNEL.md anew, and holds all else
set -euo pipefail
here=$(cd "$(dirname "${BASH_SOURCE[0]}")" && pwd)
cd "$here/../.."
if [ $# -gt 0 ] && [ "$*" != write ]; then
    echo "usage: tests/object/run.sh [write]" >&2
    exit 2
fi
made=$(mktemp -d)
trap 'rm -rf "$made"' EXIT

fail() {
    echo "object: $*" >&2
    exit 1
}

inspect() { # LIBRARY
    python3 "$here/inspect.py" "$1" > "$made/told"
}

# The inspection finds a fault: LIBRARY, the fault's words.
finds() {
    inspect "$1" && fail "nothing is found wrong with ${1##*/}"
    grep -qF -- "$2" "$made/told" || fail "not found in ${1##*/}: $2; found: $(head -n 3 "$made/told")"
}

# A library of one piece of assembly from standard input, with one fault: name, the fault's words.
wrong() {
    cat > "$made/$1.s"
    gcc -c -o "$made/$1.o" "$made/$1.s"
    ar rcs "$made/$1.a" "$made/$1.o"
    finds "$made/$1.a" "$2"
}

# One piece in which nothing is wrong: name.
right() {
    cat > "$made/$1.s"
    gcc -c -o "$made/$1.o" "$made/$1.s"
    ar rcs "$made/$1.right" "$made/$1.o"
    inspect "$made/$1.right" || fail "found, though nothing is wrong with $1: $(head -n 3 "$made/told")"
}

# A function of so many lines: name, lines.
named() {
    printf '.globl %s\n.text\n%s:\n' "$1" "$1"
    printf '%s\n' "${@:2}"
}

f() {
    named f "$@"
}

# A call that leaves everything to one function below it, of so many lines: name, lines. The assembler's own call would get another relocation.
by_callee() {
    named "$1" 'sub $8, %rsp' '.byte 0xe8' '.reloc ., R_X86_64_PLT32, below - 4' '.long 0' 'add $8, %rsp' 'ret' '.section .text.below, "ax"' 'below:' "${@:2}"
}

bindings/library
library=target/bindings/libcorwystal.a
inspect "$library" || fail "$library can't be linked into a kernel: $(cat "$made/told")"
mv "$made/told" "$made/calls"

# Each call in many situations: its stack by painting, its instructions by callgrind; docs/KERNEL.md has the most of both, beside what the code has.
mkdir "$made/counts"
mapfile -t wraps < <(sed 's/ .*//; s/^/-Wl,--wrap=/' "$made/calls")
gcc -std=gnu11 -O2 -Wall -Wextra -DPAINT -o "$made/painted" "$here/met.c" "$here/paint.S" "${wraps[@]}" "$library"
gcc -std=gnu11 -O2 -Wall -Wextra -o "$made/counted" "$here/met.c" "$here/paint.S" "$library"
"$made/painted" stack > "$made/stack" || fail "the stack of the calls could not be measured: see above"
valgrind --tool=callgrind --collect-atstart=no --compress-strings=no --compress-pos=no --callgrind-out-file="$made/counts/dump" \
    "$made/counted" count > "$made/log" 2>&1 || fail "the instructions of the calls could not be counted: $(cat "$made/log")"
python3 "$here/table.py" "$made/calls" "$made/stack" "$made/counts" docs/KERNEL.md "$@"

# The table's test finds a call that uses or runs more than was read off, and a number that is no longer so: the calls, the page, what is found.
outdated() {
    python3 "$here/table.py" "$1" "$made/stack" "$made/counts" "$2" > "$made/told" 2>&1 && fail "table.py doesn't find: $3"
    grep -qF -- "$3" "$made/told" || fail "table.py finds something else than $3: $(head -n 3 "$made/told")"
}
sed -E 's/^(corwystal_write) [0-9]+/\1 64/' "$made/calls" > "$made/shallow"
sed -E 's/^(corwystal_release [0-9]+) [0-9]+/\1 9/' "$made/calls" > "$made/short"
sed -E '/^\| touch /s/[0-9]+ for a resident page/9 for a resident page/' docs/KERNEL.md > "$made/old.md"
sed -E '/^corwystal_touch /s/ memset$//' "$made/calls" > "$made/unclear"
outdated "$made/shallow" docs/KERNEL.md 'write, a byte: '
outdated "$made/short" docs/KERNEL.md 'release, three pages: '
outdated "$made/calls" "$made/old.md" 'tells other numbers than the library'
outdated "$made/unclear" docs/KERNEL.md 'touch calls neither memmove nor memset'

# A copy of bytes is a call of memmove, and a new page is cleared by a call of memset: without a frame for the page that the source names.
for call in 'read memmove' 'write memmove memset' 'touch memset' 'read_map memset'; do
    grep -qE "^corwystal_${call%% *} [0-9]+ [0-9-]+ ${call#* }\$" "$made/calls" || fail "${call%% *} copies or clears without ${call#* }"
done
awk '$2 > ($1 == "corwystal_read_map" ? 12288 : 1024) { exit 1 }' "$made/calls" || fail "a call uses more than 1,024 bytes of stack, or read_map than 12 KiB"

# What the compiler does when nobody tells it of kernels is found.
bash tests/careless.sh
finds target/ordinary/libcorwystal.a 'register xmm'
finds target/careless/libcorwystal.a 'memory below the stack pointer'
grep -q '^corwystal_release.*: memory below the stack pointer' "$made/told" || fail "not found in the careless library: the red zone of release"
grep -q "^corwystal_look.*: register xmm" "$made/told" || fail "not found in the careless library: the vector register of look"

f 'movq %rax, -8(%rsp)' 'ret' | wrong red_zone 'memory below the stack pointer'
f 'mov %rsp, %rdi' 'movq $1, -16(%rdi)' 'ret' | wrong red_zone_by_another_register 'memory below the stack pointer'
f 'push %rbp' 'mov %rsp, %rbp' 'movl $1, -4(%rbp)' 'pop %rbp' 'ret' | wrong red_zone_by_frame_pointer 'memory below the stack pointer'
f 'lea -32(%rsp), %rdi' 'jmp memset@PLT' | wrong red_zone_lent 'memory below the stack pointer'
f 'sub $40, %rsp' 'lea (%rsp,%rdi,8), %rax' 'sub $16, %rax' 'mov %rdi, (%rax)' 'add $40, %rsp' 'ret' | wrong red_zone_by_index 'memory below the stack pointer'
f 'sub $40, %rsp' 'lea (%rsp,%rdi,8), %rax' 'and $-32, %rax' 'movq $1, (%rax)' 'add $40, %rsp' 'ret' | wrong aligned_index "that can't be followed"
f 'sub $8, %rsp' 'test %edi, %edi' 'je 1f' 'add $8, %rsp' '1: movq $1, -8(%rsp)' 'ret' | wrong two_depths 'the stack pointer depends on the path'
f 'push %rbp' 'mov %rsp, %rbp' 'and $-32, %rsp' 'mov %rbp, %rsp' 'pop %rbp' 'ret' | wrong aligned_frame "a stack pointer that can't be followed"
f 'pxor %xmm0, %xmm0' 'ret' | wrong vector_register 'register xmm0'
f 'emms' 'ret' | wrong floating_point "an instruction that isn't a plain one"
f 'lzcnt %rdi, %rax' 'ret' | wrong newer_instruction "an instruction that isn't a plain one"
f 'cmpxchg16b (%rdi)' 'ret' | wrong wants_alignment "an instruction that isn't a plain one"
f 'rep stosb' 'ret' | wrong long_instruction "an instruction that isn't a plain one"
f 'cli' 'ret' | wrong system_instruction "an instruction that isn't a plain one"
f 'mov %fs:0x28, %rax' 'ret' | wrong segment 'register fs'
f 'mov %gs:(%rdi), %rax' 'ret' | wrong segment_and_base 'register gs'
f 'mov 0x1000, %eax' 'ret' | wrong fixed_address "an operand that can't be followed"
f 'jmp *%rdi' | wrong computed_jump 'a computed jump or call'
f 'call *%rdi' 'ret' | wrong computed_call 'a computed jump or call'
f 'sub $8, %rsp' 'call f@PLT' 'add $8, %rsp' 'ret' | wrong recursion 'calls itself'
f 'push %rbx' 'ret' | wrong unbalanced 'a return with a frame'
f 'jmp abort@PLT' | wrong other_name 'undefined name abort'
f 'mov state(%rip), %eax' 'ret' '.data' 'state: .long 1' | wrong writable_data 'section .data: writable'
f 'mov table(%rip), %eax' 'ret' '.section .rodata' 'table: .long 1' | wrong read_only_data 'a relocation R_X86_64_PC32'
f 'ret' '.section .init_array, "aw"' '.quad 0' | wrong constructor 'section .init_array'

named corwystal_release 'jmp memmove@PLT' | wrong copies 'corwystal_release: a call of memmove'
named corwystal_look 'jmp memset@PLT' | wrong clears 'corwystal_look: a call of memset'
named corwystal_give_back 'jmp memset@PLT' | wrong clears_what_goes_back 'corwystal_give_back: a call of memset'
by_callee corwystal_touch 'jmp memmove@PLT' | wrong copies_below 'corwystal_touch: a call of memmove, at below'
by_callee corwystal_translate 'jmp memset@PLT' | wrong clears_below 'corwystal_translate: a call of memset, at below'
named corwystal_read 'jmp memset@PLT' | wrong read_clears 'corwystal_read: a call of memset'
named corwystal_write 'jmp memcpy@PLT' | wrong other_copy 'corwystal_write: a call of memcpy'
named corwystal_read 'sub $40, %rsp' 'mov %rsp, %rdi' 'call memmove@PLT' 'add $40, %rsp' 'ret' | wrong copy_to_the_stack 'a copy to or from the stack'
named corwystal_write 'sub $40, %rsp' 'lea 8(%rsp), %rax' 'mov %rax, %rsi' 'call memmove@PLT' 'add $40, %rsp' 'ret' \
    | wrong copy_from_the_stack 'a copy to or from the stack'
by_callee corwystal_write 'mov $28, %edx' 'jmp memmove@PLT' | wrong copy_of_a_head 'a copy with a length that is a constant'
named corwystal_write 'mov $27, %eax' 'inc %eax' 'mov %rax, %rdx' 'jmp memmove@PLT' | wrong constant_by_registers 'a copy with a length that is a constant'
named corwystal_read 'test %edi, %edi' 'je 1f' 'mov $28, %edx' '1: jmp memmove@PLT' | wrong constant_on_one_path 'a copy with a length that is a constant'
named corwystal_touch 'sub $40, %rsp' 'mov %rsp, %rdi' 'call memset@PLT' 'add $40, %rsp' 'ret' | wrong fill_of_the_stack 'a fill to or from the stack'
by_callee corwystal_write 'mov $256, %edx' 'jmp memset@PLT' | wrong fill_of_a_record 'a fill with a length that is a constant'
named corwystal_start 'mov $28, %edx' 'jmp memset@PLT' | wrong fill_of_a_head 'a fill with a length that is a constant'
named corwystal_write_map 'jmp memset@PLT' | wrong map_clears 'corwystal_write_map: a call of memset'
named corwystal_read_map 'mov $28, %edx' 'jmp memset@PLT' | wrong fill_of_a_map_head 'a fill with a length that is a constant'
named corwystal_release '1: dec %edi' 'jne 1b' 'ret' | wrong loop 'corwystal_release: a loop, by the jump back to 0x0'
named corwystal_free_count 'jmp 2f' '1: dec %edi' '2: test %edi, %edi' 'jne 1b' 'ret' | wrong loop_from_its_middle 'corwystal_free_count: a loop'
named corwystal_drop '1: jmp 1b' | wrong endless 'corwystal_drop: a loop'
named corwystal_give_back '1: mov (%rdi), %rdi' 'test %rdi, %rdi' 'jne 1b' 'ret' | wrong walk_of_the_links 'corwystal_give_back: a loop'
by_callee corwystal_touch '1: shr %rdi' 'jne 1b' 'ret' | wrong loop_below 'corwystal_touch: a loop, by the jump back to 0x0 at below'
named corwystal_release 'jmp 2f' '1: ret' '2: test %edi, %edi' 'je 1b' 'mov $28, %edx' 'jmp 1b' | right jumps_back
named corwystal_read 'mov $28, %edx' 'mov %r9, %rdx' 'jmp memmove@PLT' | right copies_bytes
named corwystal_read '1: dec %edi' 'jne 1b' 'ret' | right may_loop
f 'sub $40, %rsp' 'lea (%rsp,%rdi,8), %rax' 'add $8, %rax' 'movq $1, (%rax)' 'movq $1, 8(%rax,%rsi,8)' 'add $40, %rsp' 'ret' | right array_on_the_stack
by_callee corwystal_read_map 'sub $72, %rsp' 'lea 8(%rsp), %rdi' 'mov $64, %edx' 'call memset@PLT' 'add $72, %rsp' 'ret' | right clears_its_set
by_callee corwystal_touch 'mov $1, %edx' 'shl %cl, %rdx' 'jmp memset@PLT' | right clears_a_page
grep -qx 'corwystal_touch 24 7 memset' "$made/told" || fail "a call of memset by a callee is not told: $(cat "$made/told")"
named corwystal_write 'push %rbx' 'mov %r9, %rdx' 'call memset@PLT' 'mov %rbx, %rdx' 'call memmove@PLT' 'pop %rbx' 'ret' | right clears_and_copies
grep -qx 'corwystal_write 24 7 memmove memset' "$made/told" || fail "calls of both are not told: $(cat "$made/told")"

instructions=$(objdump -d --no-show-raw-insn "$library" | grep -cE '^ *[0-9a-f]+:')
echo "object: $(nm "$library" | grep -c ' [tT] ') functions, $instructions instructions: general registers only, nothing below the stack pointer;" \
    "$(find "$made" -name '*.a' | wc -l) faulty pieces found"
