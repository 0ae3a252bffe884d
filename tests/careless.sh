#!/usr/bin/env bash
# Builds libraries that no kernel can have, which the tests of the object code and of the board must find wrong:
#     target/ordinary/libcorwystal.a    as `rt lib --cpu x86-64` builds it, without what bindings/library adds for a kernel. What the compiler then does
#                                       differs from version to version of the source; today start, write and write_map use vector registers
#     target/careless/libcorwystal.a    the kernel's, with a release that keeps one argument below the stack pointer and a look that keeps one in a
#                                       vector register over some hundred instructions, as compilers do where nobody tells them of kernels
set -euo pipefail
cd "$(dirname "${BASH_SOURCE[0]}")/.."

fail() {
    echo "careless: $*" >&2
    exit 1
}

ordinary() {
    local made=target/ordinary from
    mkdir -p "$made"
    tools/prove corwystal_c "$made/log" careless || fail "$(tail -n 5 "$made/log")"
    from=$(head -n 1 target/proved/corwystal_c && sha256sum tools/archive)
    [ -e "$made/libcorwystal.a" ] && [ -e "$made/from" ] && [ "$from" = "$(cat "$made/from")" ] && return
    tools/archive corwystal_c "$made/libcorwystal.a" "$made/log" || fail "$(tail -n 5 "$made/log")"
    echo "$from" > "$made/from"
}

careless() {
    local made=target/careless from
    mkdir -p "$made"
    bindings/library
    # made from these; tests that run at once find it made
    from=$(sha256sum target/bindings/libcorwystal.a tests/careless.sh)
    [ -e "$made/from" ] && [ "$from" = "$(cat "$made/from")" ] && return
    cat > "$made/calls.s" << 'END'
.section .text.corwystal_release, "ax"
.globl corwystal_release
corwystal_release:
    movq %rdi, -8(%rsp)
    xorl %edi, %edi
    .rept 300
    nop
    .endr
    movq -8(%rsp), %rdi
    jmp careful_release@PLT
.section .text.corwystal_look, "ax"
.globl corwystal_look
corwystal_look:
    movq %rdi, %xmm0
    xorl %edi, %edi
    .rept 300
    nop
    .endr
    movq %xmm0, %rdi
    jmp careful_look@PLT
.section .note.GNU-stack, "", @progbits
END
    gcc -c -o "$made/calls.o" "$made/calls.s"
    objcopy --redefine-sym corwystal_release=careful_release --redefine-sym corwystal_look=careful_look \
        target/bindings/libcorwystal.a "$made/libcorwystal.a"
    ar rs "$made/libcorwystal.a" "$made/calls.o" 2> /dev/null
    echo "$from" > "$made/from"
}

ordinary
careless
