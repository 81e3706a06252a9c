/* void enter(void): calls *enter_at on the lent stack with zeros in all other registers, so that every run starts alike; with enter_flags = 0x100
 * each instruction from here on traps. A replay jumps to enter_left when it is done. */
        .globl  enter, enter_left
        .text
enter:
        push    %rbx
        push    %rbp
        push    %r12
        push    %r13
        push    %r14
        push    %r15
        mov     %rsp, enter_stack
        pushfq
        mov     enter_flags, %rax
        or      %rax, (%rsp)
        popfq
        mov     $lent_stack_top, %esp
        .irp    r, eax, ebx, ecx, edx, esi, edi, ebp, r8d, r9d, r10d, r11d, r12d, r13d, r14d, r15d
        xor     %\r, %\r
        .endr
        .irp    r, 0, 1, 2, 3, 4, 5, 6, 7, 8, 9, 10, 11, 12, 13, 14, 15
        pxor    %xmm\r, %xmm\r
        .endr
        call    *enter_at
enter_left:
        mov     enter_stack, %rsp
        pop     %r15
        pop     %r14
        pop     %r13
        pop     %r12
        pop     %rbp
        pop     %rbx
        ret

        .bss
        .balign 64
        .globl  lent_stack, lent_stack_top, enter_at, enter_flags
lent_stack:
        .skip   32768
lent_stack_top:
        .skip   64
enter_stack:
        .skip   8
enter_at:
        .skip   8
enter_flags:
        .skip   8
        .section .note.GNU-stack, "", @progbits
