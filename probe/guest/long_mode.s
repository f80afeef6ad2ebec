# SPDX-License-Identifier: MIT OR Apache-2.0
# Included by the code that starts processor 0: 16-bit or 32-bit code, no paging, segments from 0.
# It makes the boot tables, which map the first GB at 0 and at 0xFFFF800000000000 by 2-MB pages,
# with A and D set. Then it enters long mode and jumps to the guest. The tables stay, since the
# other processors start with them.
        .equ ROOT, 0x2000
        .equ PDPT, 0x3000
        .equ PD, 0x4000
        .equ GUEST, 0x10000

        mov edi, ROOT
        mov ecx, 3 * 4096 / 4
        xor eax, eax
        rep stosd
        mov word ptr [ROOT], PDPT | 0x23
        mov word ptr [ROOT + 256 * 8], PDPT | 0x23
        mov word ptr [PDPT], PD | 0x23
        mov edi, PD
        mov eax, 0xE3
        mov ecx, 512
page:   mov [edi], eax
        add eax, 0x200000
        add edi, 8
        loop page

        lgdt [descriptors]
        mov eax, cr4
        or eax, 0x20            # PAE
        mov cr4, eax
        mov eax, ROOT
        mov cr3, eax
        mov ecx, 0xC0000080     # EFER.LME
        rdmsr
        or eax, 0x100
        wrmsr
        mov eax, cr0
        or eax, 0x80000001      # PG and PE
        mov cr0, eax
        jmp 0x08:long_mode

        .code64
long_mode:
        mov eax, 0x10
        mov ds, eax
        mov es, eax
        mov ss, eax
        xor edi, edi            # processor 0
        movabs rax, 0xFFFF800000000000 + GUEST
        jmp rax

        .balign 8
table:  .quad 0
        .quad 0x00209A0000000000 # 0x08: code
        .quad 0x00CF92000000FFFF # 0x10: data
descriptors:
        .word descriptors - table - 1
        .long table
