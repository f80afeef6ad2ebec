/* SPDX-License-Identifier: MIT OR Apache-2.0 */
/*
 * Records the paging of the guest for pcid-audit: what QEMU's TCG calls, where
 * record/qemu/qemu-10.0.patch says. record/recorder.h has the environment variables.
 *
 * QEMU's generated code does not tell of accesses that hit in its TLB. So a flag in an entry of that
 * TLB has QEMU's slow path look at each access, which tells of it and then clears the flag. Events
 * after which accesses are recorded again set the flag in all entries of the processor, and a new
 * table sets it in those of all processors, so that stores to tables are seen.
 */
#ifndef PCID_INSTRUMENT_H
#define PCID_INSTRUMENT_H

#include "hw/core/cpu.h"
#include "exec/mmu-access-type.h"

enum pcid_bug { PCID_NO_BUG, PCID_INVLPG_BUG, PCID_INVPCID_BUG, PCID_CR3_BUG, PCID_FAULT_BUG };

extern bool pcid_on; /* a record is open */

/* Whether the event at hand is to be forgotten. The caller asks once for each event. */
bool pcid_forgets(enum pcid_bug bug);

void pcid_begin_or_end(unsigned value);
void pcid_invlpg(CPUState *cpu, vaddr linear);
void pcid_control(CPUState *cpu, int number, uint64_t value); /* a MOV to CR0, CR3 or CR4 */
void pcid_read_entry(CPUState *cpu, int level, hwaddr address, uint64_t value);
void pcid_set_flags(CPUState *cpu, int mmu_idx, MMUAccessType type, vaddr linear, hwaddr address,
                    bool dirties);
void pcid_fault(CPUState *cpu, int mmu_idx, MMUAccessType type, vaddr linear, unsigned code);

/* An access. Answers whether those that follow by the same entry of the TLB need not be told. */
bool pcid_access(CPUState *cpu, int mmu_idx, MMUAccessType type, vaddr linear, hwaddr physical);

/* A store, before it reaches memory, and behind the calls for all accesses of its instruction. */
void pcid_store(CPUState *cpu, hwaddr physical, unsigned bytes);

/* Of the patched accel/tcg/cputlb.c: sets the flag in all entries, and has QEMU look up again where
 * its code stands. */
void pcid_tlb_watch(CPUState *cpu);

#endif
