/*
 * The board's first and lowest code: from the loader's 32-bit mode to long mode, the entries of traps and interrupts, and the two
 * functions of C that the library asks for. Boots by PVH: an ELF file with a note that names the 32-bit entry.
 */
    .set CODE, 0x08
    .set DATA, 0x10
    .set TASK, 0x18

    .section .note.Xen, "a", @note
    .align 4
    .long 4, 4, 18 /* lengths of name and value; 18: the value is an entry in 32-bit mode */
    .asciz "Xen"
    .long entry

    .text
    .code32
    .globl entry
entry:
    cli
    mov %ebx, start_info
    mov $stack_top, %esp
    /* addresses are the machine's own up to 4 GiB, in pages of 2 MiB */
    xor %ecx, %ecx
1:  mov %ecx, %eax
    shl $21, %eax
    or $0x83, %eax
    mov %eax, page_directory(, %ecx, 8)
    movl $0, page_directory + 4(, %ecx, 8)
    inc %ecx
    cmp $2048, %ecx
    jne 1b
    .irp n, 0, 1, 2, 3
    movl $page_directory + \n * 4096 + 3, page_pointers + \n * 8
    .endr
    movl $page_pointers + 3, page_root
    mov $page_root, %eax
    mov %eax, %cr3
    mov $0x20, %eax /* PAE; SSE stays off until the kernel turns it on */
    mov %eax, %cr4
    mov $0xC0000080, %ecx
    rdmsr
    or $0x100, %eax /* long mode */
    wrmsr
    mov $0x80000011, %eax /* paging, protection */
    mov %eax, %cr0
    lgdt table_of_segments
    ljmp $CODE, $entry64

    .code64
entry64:
    mov $DATA, %ax
    mov %ax, %ds
    mov %ax, %es
    mov %ax, %ss
    xor %eax, %eax
    mov %ax, %fs
    mov %ax, %gs
    /* the task segment's address goes into its descriptor */
    lea task_segment(%rip), %rax
    mov %ax, segments + TASK + 2(%rip)
    shr $16, %rax
    mov %al, segments + TASK + 4(%rip)
    mov %ah, segments + TASK + 7(%rip)
    mov $TASK, %ax
    ltr %ax
    lea stack_top(%rip), %rsp
    mov start_info(%rip), %edi
    call kernel
2:  cli
    hlt
    jmp 2b

/* ---- traps and interrupts: one entry a vector, 16 bytes apart; where the processor gives no error code, 0 stands in for it */

    .align 16
    .globl trap_entries
trap_entries:
    .set vector, 0
    .rept 64
    .align 16
    .if !((vector == 8) || ((vector >= 10) && (vector <= 14)) || (vector == 17))
    push $0
    .endif
    push $vector
    jmp trapped
    .set vector, vector + 1
    .endr

    .macro push_all
    .irp r, rax, rcx, rdx, rbx, rbp, rsi, rdi, r8, r9, r10, r11, r12, r13, r14, r15
    push %\r
    .endr
    .endm
    .macro pop_all
    .irp r, r15, r14, r13, r12, r11, r10, r9, r8, rdi, rsi, rbp, rbx, rdx, rcx, rax
    pop %\r
    .endr
    .endm

    .set FRAME, 22 * 8     /* struct trap_frame */
    .set FRAME_RSP, 20 * 8 /* the stack pointer of what was interrupted */
    .set BELOW, 1024       /* so much below the frame is overwritten too */

trapped:
    push_all
    cld
    mov %rsp, %rbp
    mov %rsp, %rdi
    and $-16, %rsp
    call trap
    mov %rbp, %rsp
    cmpl $0, wrecking(%rip)
    je 1f
    /* All that an interrupt's handler may change: the bytes below the stack pointer of what it interrupted, every register that
       nobody saves, and those that are put back below. */
    mov $0xE5E5E5E5E5E5E5E5, %rax
    lea FRAME(%rbp), %rdi
    mov FRAME_RSP(%rbp), %rcx
    sub %rdi, %rcx /* the processor's gap between its frame and the stack, 0 to 15 bytes */
    rep stosb
    lea -BELOW(%rbp), %rdi
    mov $BELOW / 8, %ecx
    rep stosq
    mov %cr4, %rcx
    test $0x200, %ecx /* vector registers are on */
    jz 2f
    .irp n, 0, 1, 2, 3, 4, 5, 6, 7
    pcmpeqd %mm\n, %mm\n
    .endr
    .irp n, 0, 1, 2, 3, 4, 5, 6, 7, 8, 9, 10, 11, 12, 13, 14, 15
    pcmpeqd %xmm\n, %xmm\n
    .endr
2:  .irp r, rcx, rdx, rbx, rbp, rsi, rdi, r8, r9, r10, r11, r12, r13, r14, r15
    mov %rax, %\r
    .endr
1:  pop_all
    add $16, %rsp
    iretq

/* int save(struct place *): 0; and 1, each time that go_back is given the same place */
    .globl save, go_back
save:
    mov (%rsp), %rax
    mov %rax, (%rdi)
    lea 8(%rsp), %rax
    mov %rax, 8(%rdi)
    mov %rbx, 16(%rdi)
    mov %rbp, 24(%rdi)
    mov %r12, 32(%rdi)
    mov %r13, 40(%rdi)
    mov %r14, 48(%rdi)
    mov %r15, 56(%rdi)
    xor %eax, %eax
    ret
go_back:
    mov 8(%rdi), %rsp
    mov 16(%rdi), %rbx
    mov 24(%rdi), %rbp
    mov 32(%rdi), %r12
    mov 40(%rdi), %r13
    mov 48(%rdi), %r14
    mov 56(%rdi), %r15
    mov $1, %eax
    jmp *(%rdi)

/* void call_off_by_8(void (*)(void)): calls it with a stack that is not aligned as C's convention asks */
    .globl call_off_by_8
call_off_by_8:
    push %rbp
    mov %rsp, %rbp
    and $-16, %rsp
    sub $8, %rsp
    call *%rdi
    leave
    ret

/* ---- what the library asks for, in the general registers */

    .section .text.copies, "ax"
    .globl memmove, memset
memmove:
    mov %rdi, %rax
    mov %rdx, %rcx
    mov %rdi, %r8
    sub %rsi, %r8
    cmp %rdx, %r8
    jb 1f /* it begins inside the source: from the end */
    rep movsb
    ret
1:  lea -1(%rdi, %rdx), %rdi
    lea -1(%rsi, %rdx), %rsi
    std
    rep movsb
    cld
    ret
memset:
    mov %rdi, %r8
    mov %esi, %eax
    mov %rdx, %rcx
    rep stosb
    mov %r8, %rax
    ret

    .data
    .align 8
segments:
    .quad 0
    .quad 0x00AF9A000000FFFF /* code */
    .quad 0x00CF92000000FFFF /* data */
    .quad 0x0000890000000067 /* task; its upper half is 0 */
    .quad 0
table_of_segments:
    .word . - segments - 1
    .quad segments
start_info:
    .long 0

    .bss
    .align 4096
page_root:
    .skip 4096
page_pointers:
    .skip 4096
    .globl page_directory
page_directory:
    .skip 4 * 4096
    .skip 32768
stack_top:

    .section .note.GNU-stack, "", @progbits
