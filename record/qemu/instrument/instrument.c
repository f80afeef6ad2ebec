/* SPDX-License-Identifier: MIT OR Apache-2.0 */
/* Records the paging of the guest for pcid-audit: see instrument.h, and record/recorder.h for what
 * recorders of all emulators share. */
#include "qemu/osdep.h"
#include "cpu.h"
#include "exec/cputlb.h"
#include "hw/boards.h"
#include "qemu/timer.h"
#include "instrument.h"
#include "recorder.h"

static const uint8_t *memory; /* the guest's */

/* ---- What the recorder asks for ---------------------------------------------------------------- */

static CPUX86State *processor(uint32_t cpu)
{
    return cpu_env(qemu_get_cpu((int)cpu));
}

static uint32_t machine_processors(void)
{
    return current_machine->smp.cpus;
}

static uint64_t machine_cr3(uint32_t cpu)
{
    return processor(cpu)->cr[3];
}

static int machine_pge(uint32_t cpu)
{
    return (processor(cpu)->cr[4] & CR4_PGE_MASK) != 0;
}

static uint32_t machine_address_bits(void)
{
    return env_archcpu(processor(0))->phys_bits;
}

static uint64_t machine_memory_bytes(void)
{
    return current_machine->ram_size;
}

static uint64_t machine_microseconds(void)
{
    return (uint64_t)qemu_clock_get_us(QEMU_CLOCK_VIRTUAL);
}

static uint64_t machine_word(void *context, uint64_t address)
{
    return ldq_le_p(memory + address);
}

static void machine_flush(uint32_t cpu)
{
    tlb_flush(qemu_get_cpu((int)cpu));
}

static uint32_t machine_settings(uint32_t cpu)
{
    const CPUX86State *env = processor(cpu);

    return (env->cr[0] & CR0_WP_MASK ? PCID_RECORD_WP : 0) |
           (env->efer & MSR_EFER_NXE ? PCID_RECORD_NXE : 0) |
           (env->cr[4] & CR4_SMEP_MASK ? PCID_RECORD_SMEP : 0) |
           (env->cr[4] & CR4_SMAP_MASK ? PCID_RECORD_SMAP : 0) |
           (env->cr[4] & CR4_PCIDE_MASK ? RECORDER_PCIDE : 0) |
           (env->cr[0] & CR0_PG_MASK ? RECORDER_PAGING : 0) |
           (env->efer & MSR_EFER_LMA ? RECORDER_LONG_MODE : 0) |
           (env->cr[4] & CR4_LA57_MASK ? RECORDER_LEVEL_5 : 0);
}

/* ---- Tables and accesses ----------------------------------------------------------------------- */

bool pcid_forgets(enum pcid_bug asked)
{
    return forgets(asked);
}

void pcid_read_entry(CPUState *cpu, int level, hwaddr address, uint64_t value)
{
    const bool was_table = is_table(address);
    CPUState *other;

    record_entry(cpu->cpu_index, level, address, value);
    if (was_table)
        return;
    CPU_FOREACH(other)
        pcid_tlb_watch(other);
}

/* An access that QEMU makes for the processor at CPL 3 is implicit, and has no AC. */
static unsigned flags_of(CPUState *cpu, int mmu_idx, MMUAccessType type)
{
    const CPUX86State *env = cpu_env(cpu);
    const unsigned operation = type == MMU_INST_FETCH ? PCID_RECORD_FETCH
                               : type == MMU_DATA_STORE ? PCID_RECORD_WRITE : PCID_RECORD_READ;
    const bool has_ac = (env->hflags & HF_CPL_MASK) != 3 && type != MMU_INST_FETCH &&
                        (env->eflags & AC_MASK) != 0;

    if (is_mmu_index_user(mmu_idx))
        return operation | PCID_RECORD_USER;
    return operation | (has_ac ? PCID_RECORD_AC : 0);
}

static vaddr linear_of(int mmu_idx, vaddr linear)
{
    return is_mmu_index_32(mmu_idx) ? (uint32_t)linear : linear;
}

bool pcid_access(CPUState *cpu, int mmu_idx, MMUAccessType type, vaddr linear, hwaddr physical)
{
    if (mmu_idx >= MMU_PHYS_IDX)
        return true;
    record_answer(cpu->cpu_index, flags_of(cpu, mmu_idx, type), linear_of(mmu_idx, linear),
                  physical);
    return type != MMU_DATA_STORE || !is_table(physical);
}

void pcid_store(CPUState *cpu, hwaddr physical, unsigned bytes)
{
    record_store(cpu->cpu_index, physical, bytes);
}

void pcid_set_flags(CPUState *cpu, int mmu_idx, MMUAccessType type, vaddr linear, hwaddr address,
                    bool dirties)
{
    took(pcid_tables_assist(&tables, cpu->cpu_index,
                            flags_of(cpu, mmu_idx, type) | (dirties ? PCID_RECORD_DIRTY : 0),
                            linear_of(mmu_idx, linear), address));
}

void pcid_fault(CPUState *cpu, int mmu_idx, MMUAccessType type, vaddr linear, unsigned code)
{
    record_fault(cpu->cpu_index, flags_of(cpu, mmu_idx, type), linear_of(mmu_idx, linear), code);
    pcid_tlb_watch(cpu);
}

/* ---- Instructions ------------------------------------------------------------------------------ */

void pcid_invlpg(CPUState *cpu, vaddr linear)
{
    record_invlpg(cpu->cpu_index, linear);
    pcid_tlb_watch(cpu);
}

void pcid_control(CPUState *cpu, int number, uint64_t value)
{
    if (number == 3)
        record_mov_cr3(cpu->cpu_index, value);
    else if (number == 0 || number == 4)
        record_control(cpu->cpu_index, number == 4);
    pcid_tlb_watch(cpu);
}

/* ---- Begin and end ----------------------------------------------------------------------------- */

/* QEMU ends by itself, as where the guest resets its machine. */
static void on_exit_of_qemu(void)
{
    if (pcid_on)
        finish("by QEMU", RECORDER_EARLY);
}

void pcid_begin_or_end(unsigned value)
{
    if (memory == NULL) {
        memory = memory_region_get_ram_ptr(current_machine->ram);
        atexit(on_exit_of_qemu);
    }
    begin_or_end(value);
}
