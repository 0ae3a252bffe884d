/*
 * What met.c needs of the machine: memmove and memset without a frame, as a kernel's own may be, so that what is measured is the library's and the
 * same with every C library; and, with PAINT, every call of the library by way of `painted`, which paints the stack below it and counts afterwards.
 * The linker's --wrap sends a call of corwystal_X to __wrap_corwystal_X, and leaves the library's own as __real_corwystal_X.
 */
        .text
        .globl  memmove
        .type   memmove, @function
memmove:
        mov     %rdi, %rax
        mov     %rdx, %rcx
        mov     %rdi, %r8
        sub     %rsi, %r8
        cmp     %rdx, %r8
        jb      1f              /* the target begins inside the source: from the end on */
        rep movsb
        ret
1:      lea     -1(%rdi,%rdx), %rdi
        lea     -1(%rsi,%rdx), %rsi
        std
        rep movsb
        cld
        ret
        .size   memmove, . - memmove

        .globl  memset
        .type   memset, @function
memset:
        mov     %rdi, %r8
        mov     %esi, %eax
        mov     %rdx, %rcx
        rep stosb
        mov     %r8, %rax
        ret
        .size   memset, . - memset

#ifdef PAINT
        .set    DEPTH, 16384    /* bytes that are painted, more than any call may use */

        .globl  paint, painted_over
        .local  back
        .comm   paint, 8
        .comm   painted_over, 8
        .comm   back, 8

/* In r11 the function. Its arguments, in registers and on the stack, stay as they are; it returns to `counted`, and that to its caller. */
painted:
        mov     (%rsp), %r10
        mov     %r10, back(%rip)
        lea     counted(%rip), %r10
        mov     %r10, (%rsp)
        mov     paint(%rip), %rax
        lea     -DEPTH(%rsp), %r10
1:      mov     %rax, (%r10)
        add     $8, %r10
        cmp     %rsp, %r10
        jb      1b
        jmp     *%r11

/* rax and rdx hold the answer. The first word from below that isn't painted is at the latest the return address itself. */
counted:
        mov     paint(%rip), %rsi
        lea     -8-DEPTH(%rsp), %rcx
1:      cmp     %rsi, (%rcx)
        jne     2f
        add     $8, %rcx
        jmp     1b
2:      mov     %rsp, %rsi
        sub     %rcx, %rsi
        mov     %rsi, painted_over(%rip)
        jmp     *back(%rip)

        .macro  by_way_of_painted calls:vararg
        .irp    call, \calls
        .globl  __wrap_corwystal_\call
        .type   __wrap_corwystal_\call, @function
__wrap_corwystal_\call:
        lea     __real_corwystal_\call(%rip), %r11
        jmp     painted
        .endr
        .endm
        by_way_of_painted start, mark, drop, touch, look, release, give_back, free_count, translate, read, write, list, write_map, read_map, how_full, sizes

        .globl  deep_104
        .type   deep_104, @function
deep_104:
        lea     1f(%rip), %r11
        jmp     painted
1:      sub     $96, %rsp
        movb    $1, 7(%rsp)
        add     $96, %rsp
        mov     $104, %eax
        ret
#endif
        .section .note.GNU-stack, "", @progbits
