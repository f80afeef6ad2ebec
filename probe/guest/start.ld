/* SPDX-License-Identifier: MIT OR Apache-2.0 */
/* Above the pool, the log and the frames of the first 128 MB that tested addresses lead to. */
ENTRY(start)
PHDRS
{
    text PT_LOAD FLAGS(7);
    note PT_NOTE FLAGS(4);
}
SECTIONS
{
    . = 0x1800000;
    .text : { *(.multiboot) *(.text) } :text
    .note.Xen : { *(.note.Xen) } :text :note
}
