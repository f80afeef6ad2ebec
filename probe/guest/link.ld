/* SPDX-License-Identifier: MIT OR Apache-2.0 */
ENTRY(_start)
PHDRS { guest PT_LOAD FLAGS(7); far PT_LOAD FLAGS(6); }
SECTIONS
{
  . = 0xFFFF800000010000;
  .guest : AT(0x10000) { *(.start) *(.text*) *(.rodata*) *(.data*) *(.got*) } :guest
  . = ALIGN(16384);
  .areas (NOLOAD) : { *(.areas) } :guest
  .bss : { bss_begin = .; *(.bss*) *(COMMON) bss_end = .; } :guest
  guest_end = .;
  .far 0xFFFF800000600000 (NOLOAD) : AT(0x600000) { *(.far) far_end = .; } :far
  /DISCARD/ : { *(.comment) *(.eh_frame*) *(.note*) }
}
/* 0x64000 is a frame that is read and written (pages.c). */
ASSERT(guest_end <= 0xFFFF800000064000, "the guest is too large")
/* A record that is carried out again lies there (replay.c). */
ASSERT(far_end <= 0xFFFF800000700000, "what is kept of tables is too large")
