# SPDX-License-Identifier: MIT OR Apache-2.0
# A kernel that boot loaders start by Multiboot, and Xen as its first domain in the mode PVH: both in
# protected mode, with flat segments and no paging. It puts the probe's guest to 0x10000, and a
# record that is carried out again to its place, and starts the guest.
        .intel_syntax noprefix
        .code32

        .section .multiboot, "a"
        .balign 4
        .long 0x1BADB002        # magic, flags, and what makes the sum 0
        .long 0
        .long -0x1BADB002

        .section .note.Xen, "a", @note
        .balign 4
        .long 4                 # length of the name
        .long 4                 # and of what follows it
        .long 18                # XEN_ELFNOTE_PHYS32_ENTRY
        .asciz "Xen"
        .long start

        .section .text
        .global start
start:  cli
        cld
        mov esi, offset guest
        mov edi, offset GUEST
        mov ecx, (guest_end - guest + 3) / 4
        rep movsd
        mov esi, offset replay
        mov edi, REPLAY         # of image.py
        mov ecx, (replay_end - replay + 3) / 4
        rep movsd
        .include "long_mode.s"

        .balign 16
guest:  .incbin "guest"
guest_end:
        .balign 4
replay: .incbin "replay"        # a record that is carried out again
replay_end:
