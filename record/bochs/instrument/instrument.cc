// SPDX-License-Identifier: MIT OR Apache-2.0
// Records the paging of the guest for pcid-audit: see instrument.h, and record/recorder.h for what
// recorders of all emulators share.
#include "bochs.h"
#include "cpu/cpu.h"
#include "pc_system.h"
#include "memory/memory-bochs.h"
#include "recorder.h"

bool pcid_banked, pcid_marking;

static bx_TLB_entry replaced, *replaced_at; // what the walk at hand replaces, until its outcome

// ---- What the recorder asks for ----------------------------------------------------------------

static uint32_t machine_processors(void) { return BX_SMP_PROCESSORS; }
static uint64_t machine_cr3(uint32_t cpu) { return BX_CPU(cpu)->cr3; }
static int machine_pge(uint32_t cpu) { return BX_CPU(cpu)->cr4.get_PGE() != 0; }
static uint32_t machine_address_bits(void) { return BX_PHY_ADDRESS_WIDTH; }
static uint64_t machine_memory_bytes(void) { return BX_MEM(0)->get_memory_len(); }
static uint64_t machine_microseconds(void) { return bx_pc_system.time_usec(); }
static void machine_flush(uint32_t cpu) { BX_CPU(cpu)->TLB_flush(); }

static uint32_t machine_settings(uint32_t cpu)
{
  BX_CPU_C *processor = BX_CPU(cpu);
  return (processor->cr0.get_WP() ? PCID_RECORD_WP : 0) |
         (processor->efer.get_NXE() ? PCID_RECORD_NXE : 0) |
         (processor->cr4.get_SMEP() ? PCID_RECORD_SMEP : 0) |
         (processor->cr4.get_SMAP() ? PCID_RECORD_SMAP : 0) |
         (processor->cr4.get_PCIDE() ? RECORDER_PCIDE : 0) |
         (processor->cr0.get_PG() ? RECORDER_PAGING : 0) |
         (processor->long_mode() ? RECORDER_LONG_MODE : 0) |
         (processor->cr4.get_LA57() ? RECORDER_LEVEL_5 : 0);
}

static uint64_t machine_word(void *, uint64_t address)
{
  const Bit8u *host = BX_MEM(0)->getHostMemAddr(NULL, address, BX_READ);
  return host ? *(const Bit64u *)host : 0;
}

// ---- Bugs made on purpose ----------------------------------------------------------------------

bool pcid_forgets(pcid_bug asked) { return forgets(asked); }

void pcid_replace(bx_TLB_entry *entry)
{
  replaced = *entry;
  replaced_at = entry;
}

// ---- Tables and accesses -----------------------------------------------------------------------

void pcid_store(unsigned cpu, Bit64u physical, unsigned bytes)
{
  record_store(cpu, physical, bytes);
}

void pcid_read_entry(unsigned cpu, int leaf, Bit64u address, Bit64u value)
{
  record_entry(cpu, leaf + 1, address, value);
}

// An access that Bochs makes for the processor at CPL 3 is implicit, and has no AC.
static unsigned flags_of(unsigned cpu, bool user, unsigned rw)
{
  BX_CPU_C *processor = BX_CPU(cpu);
  const bool is_explicit = processor->sregs[BX_SEG_REG_CS].selector.rpl != 3;
  const unsigned operation = rw == BX_EXECUTE ? PCID_RECORD_FETCH
                             : rw & 1 ? PCID_RECORD_WRITE : PCID_RECORD_READ;
  if (user) return operation | PCID_RECORD_USER;
  const bool has_ac = is_explicit && rw != BX_EXECUTE && processor->get_AC() != 0;
  return operation | (has_ac ? PCID_RECORD_AC : 0);
}

void pcid_access(unsigned cpu, bool user, Bit64u linear, Bit64u physical, unsigned bytes,
                 unsigned rw)
{
  replaced_at = NULL;
  record_answer(cpu, flags_of(cpu, user, rw), linear, physical);
  if (rw & 1) record_store(cpu, physical, bytes); // which reaches memory after this call
}

void pcid_fetch(unsigned cpu, bool user, Bit64u linear, Bit64u physical)
{
  replaced_at = NULL;
  record_answer(cpu, flags_of(cpu, user, BX_EXECUTE), linear, physical);
}

void pcid_fault(unsigned cpu, bool user, unsigned rw, Bit64u linear, unsigned code)
{
  record_fault(cpu, flags_of(cpu, user, rw), linear, code);
  if (replaced_at != NULL && forgets(PCID_FAULT_BUG)) *replaced_at = replaced;
  replaced_at = NULL;
  tell_forgotten("fault", cpu, 0, pcid_of(cpu), linear);
}

// Before the walk sets A in the entries that it used, and D in the last one of a write that is
// allowed.
void pcid_set_flags(unsigned cpu, bool user, unsigned rw, Bit64u linear, int top, int leaf,
                    const Bit64u *address, const Bit64u *entry, bool is_allowed)
{
  for (int k = top; k >= leaf; k--) {
    const bool dirties = k == leaf && is_allowed && (rw & 1) && !(entry[k] & 0x40);
    if ((entry[k] & 0x20) && !dirties) continue;
    took(pcid_tables_assist(&tables, cpu,
                            flags_of(cpu, user, rw) | (dirties ? PCID_RECORD_DIRTY : 0), linear,
                            address[k]));
  }
}

// ---- Instructions ------------------------------------------------------------------------------

void pcid_mov_cr3(unsigned cpu, Bit64u operand)
{
  record_mov_cr3(cpu, operand);
}

// Fields that a type does not use are 0 in the record.
void pcid_invpcid(unsigned cpu, Bit64u type, Bit64u pcid, Bit64u linear)
{
  if (type >= 2) pcid = 0;
  if (type >= 1) linear = 0;
  took(pcid_tables_settle(&tables, cpu));
  pcid_seen_invpcid(&seen[cpu], type, pcid, linear);
  took(pcid_record_invpcid(&record, cpu, type, pcid, linear));
  tell_forgotten("invpcid", cpu, type, pcid, linear);
}

void pcid_control(unsigned cpu, unsigned what, Bit64u value)
{
  switch (what) {
  case BX_INSTR_INVLPG:
    record_invlpg(cpu, value);
    break;
  case BX_INSTR_MOV_CR0:
  case BX_INSTR_MOV_CR4:
    record_control(cpu, what == BX_INSTR_MOV_CR4);
    break;
  case BX_INSTR_TASK_SWITCH:
  case BX_INSTR_CONTEXT_SWITCH:
    finish("by a switch that is not recorded", RECORDER_EARLY);
    break;
  }
}

// ---- Begin and end -----------------------------------------------------------------------------

// Bochs makes its processors before it calls anything here, and asks for this from the first
// instruction on.
static const struct Early {
  Early()
  {
    pcid_banked = atoi(variable("PCID_RECORD_BANKS", "0"));
    pcid_marking = atoi(variable("PCID_RECORD_MARK", "0"));
  }
} early;

void pcid_begin_or_end(Bit16u port, unsigned value)
{
  if (port == 0xE9) begin_or_end(value);
}

// Bochs ends, by a status of its own.
void pcid_exit(void)
{
  if (pcid_on) end_record("by Bochs");
}
