/* SPDX-License-Identifier: MIT OR Apache-2.0 */
/*
 * Records the paging of the guest for pcid-audit: what Bochs calls. Bochs includes this file
 * wherever it has a hook; record/bochs/bochs-3.0.patch adds the calls that Bochs has no hook for.
 *
 * record/recorder.h has the environment variables of all recorders; two are Bochs's own:
 *
 *     PCID_RECORD_BANKS=1       keep a TLB for each of the last 16 PCIDs, as processors do. Bochs
 *                               has one TLB, and flushes it at each MOV to CR3
 *     PCID_RECORD_MARK=1        a walk sets A of the leaf also where the access is denied
 */
#if BX_INSTRUMENTATION

enum pcid_bug { PCID_NO_BUG, PCID_INVLPG_BUG, PCID_INVPCID_BUG, PCID_CR3_BUG, PCID_FAULT_BUG };

extern bool pcid_on;      // a record is open
extern bool pcid_banked;  // PCID_RECORD_BANKS
extern bool pcid_marking; // PCID_RECORD_MARK

// Whether the event at hand is to be forgotten. The caller asks once for each event.
bool pcid_forgets(pcid_bug bug);

// A walk is about to replace this translation, because it does not allow the access.
struct bx_TLB_entry;
void pcid_replace(bx_TLB_entry *entry);

void pcid_begin_or_end(Bit16u port, unsigned value);
void pcid_exit(void);
void pcid_control(unsigned cpu, unsigned what, Bit64u value);
void pcid_mov_cr3(unsigned cpu, Bit64u operand);
void pcid_invpcid(unsigned cpu, Bit64u type, Bit64u pcid, Bit64u linear);
void pcid_fetch(unsigned cpu, bool user, Bit64u linear, Bit64u physical);
void pcid_access(unsigned cpu, bool user, Bit64u linear, Bit64u physical, unsigned bytes,
                 unsigned rw);
void pcid_store(unsigned cpu, Bit64u physical, unsigned bytes);
void pcid_read_entry(unsigned cpu, int leaf, Bit64u address, Bit64u value);
void pcid_set_flags(unsigned cpu, bool user, unsigned rw, Bit64u linear, int top, int leaf,
                    const Bit64u *address, const Bit64u *entry, bool is_allowed);
void pcid_fault(unsigned cpu, bool user, unsigned rw, Bit64u linear, unsigned code);

// Whose access it is. The patch has another definition where Bochs acts for the processor.
#define PCID_USER (USER_PL)

#define BX_INSTR_LIN_ACCESS(cpu_id, lin, phy, len, memtype, rw) \
  { if (pcid_on) pcid_access(cpu_id, PCID_USER, lin, phy, len, rw); }
#define BX_INSTR_PHY_ACCESS(cpu_id, phy, len, memtype, rw) \
  { if (pcid_on && ((rw) & 1)) pcid_store(cpu_id, phy, len); }
#define BX_INSTR_TLB_CNTRL(cpu_id, what, value) { if (pcid_on) pcid_control(cpu_id, what, value); }
#define BX_INSTR_OUTP(addr, len, val) pcid_begin_or_end(addr, val)
#define BX_INSTR_EXIT_ENV() pcid_exit()

#else

#define BX_INSTR_LIN_ACCESS(cpu_id, lin, phy, len, memtype, rw)
#define BX_INSTR_PHY_ACCESS(cpu_id, phy, len, memtype, rw)
#define BX_INSTR_TLB_CNTRL(cpu_id, what, value)
#define BX_INSTR_OUTP(addr, len, val)
#define BX_INSTR_EXIT_ENV()

#endif

// Hooks of Bochs that a record does not need.
#define BX_INSTR_INIT_ENV()
#define BX_INSTR_INITIALIZE(cpu_id)
#define BX_INSTR_EXIT(cpu_id)
#define BX_INSTR_RESET(cpu_id, type)
#define BX_INSTR_HLT(cpu_id)
#define BX_INSTR_MWAIT(cpu_id, addr, len, flags)
#define BX_INSTR_DEBUG_PROMPT()
#define BX_INSTR_DEBUG_CMD(cmd)
#define BX_INSTR_CNEAR_BRANCH_TAKEN(cpu_id, branch_eip, new_eip)
#define BX_INSTR_CNEAR_BRANCH_NOT_TAKEN(cpu_id, branch_eip)
#define BX_INSTR_UCNEAR_BRANCH(cpu_id, what, branch_eip, new_eip)
#define BX_INSTR_FAR_BRANCH(cpu_id, what, prev_cs, prev_eip, new_cs, new_eip)
#define BX_INSTR_OPCODE(cpu_id, i, opcode, len, is32, is64)
#define BX_INSTR_EXCEPTION(cpu_id, vector, error_code)
#define BX_INSTR_INTERRUPT(cpu_id, vector)
#define BX_INSTR_HWINTERRUPT(cpu_id, vector, cs, eip)
#define BX_INSTR_CLFLUSH(cpu_id, laddr, paddr)
#define BX_INSTR_CACHE_CNTRL(cpu_id, what)
#define BX_INSTR_PREFETCH_HINT(cpu_id, what, seg, offset)
#define BX_INSTR_BEFORE_EXECUTION(cpu_id, i)
#define BX_INSTR_AFTER_EXECUTION(cpu_id, i)
#define BX_INSTR_REPEAT_ITERATION(cpu_id, i)
#define BX_INSTR_INP(addr, len)
#define BX_INSTR_INP2(addr, len, val)
#define BX_INSTR_WRMSR(cpu_id, addr, value)
#define BX_INSTR_VMEXIT(cpu_id, reason, qualification)
