# SPDX-License-Identifier: MIT OR Apache-2.0
# The boot sector: loads the guest from the sectors behind it to 0x10000, and starts it.
        .intel_syntax noprefix
        .code16
        # linked to 0x7C00; SECTORS are those of the guest, a multiple of 32

        .global start
start:  cli
        xor ax, ax
        mov ds, ax
        mov es, ax
        mov ss, ax
        mov sp, 0x7C00
        in al, 0x92             # address line 20
        or al, 2
        and al, 0xFE
        out 0x92, al
        mov cx, SECTORS / 32
load:   push cx
        mov ah, 0x42            # dl is the drive, as the BIOS left it
        mov si, offset packet
        push dx
        int 0x13
        pop dx
        jc no_disk
        pop cx
        add dword ptr [packet_sector], 32
        add word ptr [packet_segment], 32 * 512 / 16
        loop load
        mov word ptr [packet_segment], 0x8000
        mov cx, [parts]
        jcxz loaded
more:   push cx                 # a record that is carried out again goes to 0x700000
        push dx
        mov ah, 0x42
        mov si, offset packet
        int 0x13
        jc no_disk
        mov ah, 0x87            # moves a block above 1 MB
        mov cx, 32 * 512 / 2
        mov si, offset move
        int 0x15
        jc no_disk
        pop dx
        pop cx
        add dword ptr [packet_sector], 32
        add word ptr [move_low], 32 * 512
        adc byte ptr [move_high], 0
        loop more
loaded: cli
        .include "long_mode.s"

        .balign 4
packet: .byte 16, 0
        .word 32                # sectors
        .word 0
packet_segment: .word 0x1000
packet_sector: .long 1
        .long 0
move:   .fill 16                # descriptors, of which the BIOS fills in the others
        .word 0xFFFF, 0         # from 0x80000
        .byte 8, 0x93, 0, 0
        .word 0xFFFF
move_low: .word 0
move_high: .byte 0x70, 0x93, 0, 0
        .fill 16
        .code16
no_disk:
        hlt
        jmp no_disk
        .org 508
parts:  .word 0                 # of 32 sectors, of that record: filled in by who writes the disk
        .word 0xAA55
