# SPDX-License-Identifier: MIT OR Apache-2.0
# The guest's entry, its settings, the handlers of exceptions, the instructions whose accesses are
# recorded, and the start of the other processors.
        .intel_syntax noprefix
        .code64

        .equ AREA, 16384        # of a processor: its block below, its stacks above

# struct processor of probe.h
        .equ SAVED_STACK, 0
        .equ VECTOR, 8
        .equ ERROR, 16
        .equ FAULT_ADDRESS, 24
        .equ RAX_LEFT, 32
        .equ RIP_LEFT, 40
        .equ FLAGS_LEFT, 48
        .equ BEGIN_LEFT, 56
        .equ END_LEFT, 64
        .equ COUNTER, 72

# At 0x10000 of physical memory. rdi is the processor's number.
        .section .start, "ax"
        .global _start, settings
_start: jmp begin
        .balign 16
settings:                       # struct settings of probe.h
        .quad 0x5350494350424F52 # magic
        .quad 1                 # seed
        .quad 1                 # seeds
        .quad 2000              # events
        .quad 1                 # processors
        .quad 1                 # version
        .quad 0                 # kinds that are left out
        .quad 0                 # ways
        .quad 0                 # script
        .quad 0                 # events of a burst
        .quad 0                 # focus
        .quad 0                 # address of the log
        .quad 0                 # its length
begin:  mov rax, rdi
        imul rax, rax, AREA
        lea rsp, [rip + processors]
        lea rsp, [rsp + rax + AREA]
        test rdi, rdi
        jnz .Lother
        call first_starts
.Lother: call other_starts

        .section .text
# carry_out(rdi processor, rsi code, rdx linear, rcx value, r8 flags, r9 is user): runs the code in
# ring 0 or 3 with rbx = linear and rax = value, until an exception of any kind. Stamps are taken
# where the processor has a counter: r10 is its address, r8 the first, r9 the second or 0.
        .global carry_out
carry_out:
        push rbx
        push rbp
        push r12
        push r13
        push r14
        push r15
        pushfq
        mov [rdi + SAVED_STACK], rsp
        mov r10, [rdi + COUNTER]
        mov rbx, rdx
        mov rax, rcx
        mov r11, r9
        xor r9d, r9d
        test r11, r11
        jnz .Luser
        push r8
        popfq
        jmp rsi
.Luser:  push 0x23              # SS
        push 0                  # RSP
        push r8                 # RFLAGS
        push 0x2B               # CS
        push rsi                # RIP
        iretq

# Each handler leaves the vector and the error code on the stack.
        .macro handler number
handler\number:
        .if \number != 8 && (\number < 10 || \number > 14) && \number != 17 && \number != 21
        push 0
        .endif
        push \number
        jmp handle
        .endm
        .irp number, 0, 1, 2, 3, 4, 5, 6, 7, 8, 9, 10, 11, 12, 13, 14, 15, 16, 17, 18, 19, 20, 21, 22, 23, 24, 25, 26, 27, 28, 29, 30, 31
        handler \number
        .endr

# Both stacks of a processor lie in its area, so that the stack pointer tells the processor.
handle: cld
        push rax
        push rbx
        lea rbx, [rsp]
        and rbx, -AREA
        cmp qword ptr [rbx + SAVED_STACK], 0
        je .Lstray
        mov [rbx + BEGIN_LEFT], r8
        test r10, r10
        jz .Lstamped
        test r9, r9
        jnz .Lstamped
        mov r9d, 1
        lock xadd [rip + counter_page], r9
.Lstamped:
        mov [rbx + END_LEFT], r9
        pop qword ptr [rbx + RIP_LEFT] # rbx as it was, which nobody wants
        pop qword ptr [rbx + RAX_LEFT]
        pop qword ptr [rbx + VECTOR]
        pop qword ptr [rbx + ERROR]
        mov rax, cr2
        mov [rbx + FAULT_ADDRESS], rax
        pop qword ptr [rbx + RIP_LEFT]
        pop rax                 # CS
        pop qword ptr [rbx + FLAGS_LEFT]
        mov rsp, [rbx + SAVED_STACK]
        mov qword ptr [rbx + SAVED_STACK], 0
        popfq
        pop r15
        pop r14
        pop r13
        pop r12
        pop rbp
        pop rbx
        ret
.Lstray: mov rdi, [rsp + 16]    # vector
        mov rsi, [rsp + 24]     # error code
        mov rdx, [rsp + 32]     # RIP
        mov rcx, cr2
        and rsp, -16
        call stray

        .section .rodata
        .balign 8
        .global handlers
handlers:
        .irp number, 0, 1, 2, 3, 4, 5, 6, 7, 8, 9, 10, 11, 12, 13, 14, 15, 16, 17, 18, 19, 20, 21, 22, 23, 24, 25, 26, 27, 28, 29, 30, 31
        .quad handler\number
        .endr

# What reads, writes and loads a limit; each ends in an invalid opcode. Used in place by ring 0, and
# by ring 3 in a copy.
        .section .text
        .balign 64
        .global stubs_begin, stub_read, stub_write, stub_implicit, stubs_end
stubs_begin:
stub_read:
        mov rax, [rbx]
        ud2
        .balign 16
stub_write:
        mov [rbx], rax
        ud2
        .balign 16
stub_implicit:
        mov ecx, eax
        xor eax, eax
        lsl eax, ecx
        ud2
        .balign 16
# The same with a stamp before and, where it comes to that, behind.
        .global stamped_read, stamped_write, stamped_fetch, stamped_implicit
        .macro stamp register
        mov \register\()d, 1
        lock xadd [r10], \register
        .endm
stamped_read:
        stamp r8
        mov rax, [rbx]
        stamp r9
        ud2
        .balign 16
stamped_write:
        stamp r8
        mov [rbx], rax
        stamp r9
        ud2
        .balign 16
stamped_fetch:
        stamp r8
        jmp rbx
        .balign 16
stamped_implicit:
        mov ecx, eax
        xor eax, eax
        stamp r8
        lsl eax, ecx            # (its ZF is wanted: the handler takes the second stamp)
        ud2
        .balign 16
stubs_end:

# Copied to 0x8000, where the other processors of a bare machine begin in real mode. Each takes the
# next number; those past the settings' count halt.
        .equ START, 0x8000
        .section .rodata
        .global start_begin, start_end, arrivals
        .balign 16
start_begin:
        .code16
        cli
        xor ax, ax
        mov ds, ax
        data32 lgdt [START + start_descriptors - start_begin]
        mov eax, cr4
        or eax, 0x20
        mov cr4, eax
        mov eax, 0x2000
        mov cr3, eax
        mov ecx, 0xC0000080
        rdmsr
        or eax, 0x100
        wrmsr
        mov eax, cr0
        or eax, 0x80000001
        mov cr0, eax
        .byte 0x66, 0xEA        # a far jump
        .long START + start_long - start_begin
        .word 0x08
        .code64
start_long:
        mov eax, 0x10
        mov ds, eax
        mov es, eax
        mov ss, eax
        mov edi, 1
        movabs rax, offset arrivals
        lock xadd [rax], rdi
        movabs rax, offset settings
        cmp rdi, [rax + 32]
        jae .Lhalt
        movabs rax, offset _start
        jmp rax
.Lhalt:  cli
        hlt
        jmp .Lhalt
        .balign 8
start_table:
        .quad 0
        .quad 0x00209A0000000000
        .quad 0x00CF92000000FFFF
start_descriptors:
        .word start_descriptors - start_table - 1
        .long START + start_table - start_begin
start_end:

        .section .data
        .balign 8
arrivals: .quad 1               # the number of the next processor
