/* SPDX-License-Identifier: MIT OR Apache-2.0 */
/* Events of a processor that acts while others do: each is carried out between two stamps, and then
 * logged by its processor. */
#include "machine.h"
#include "probe.h"

int acts_at_once(void)
{
    return (settings.ways & AT_ONCE) != 0;
}

uint64_t word_now(uint32_t frame, uint64_t index)
{
    return acts_at_once() ? *word_at(POOL_FRAME(frame) + 8 * index) : held[frame][index];
}

static struct processor *own(void)
{
    return &processors[own_number()].processor;
}

void store_at_once(uint32_t frame, uint64_t index, uint64_t value)
{
    const uint64_t address = POOL_FRAME(frame) + 8 * index;
    volatile uint64_t *const word = word_at(address);
    const uint64_t begin = stamp();

    *word = value;
    log_event(0x10, begin, stamp());
    log_field(address, 8);
    log_field(value, 8);
    log_end();
}

/* An event with one field. */
static void log_short(uint8_t tag, uint64_t begin, uint64_t end, uint64_t value, unsigned bytes)
{
    log_event(tag, begin, end);
    log_field(value, bytes);
    log_end();
}

void load_cr3_at_once(uint64_t operand)
{
    const uint64_t begin = stamp();

    write_cr3(operand);
    log_short(0x12, begin, stamp(), operand, 8);
    own()->cr3 = operand & ~(1ull << 63);
}

void invalidate_page_at_once(uint64_t linear)
{
    const uint64_t begin = stamp();

    invlpg(linear);
    log_short(0x13, begin, stamp(), linear, 8);
}

void invalidate_pcid_at_once(uint64_t type, uint64_t pcid, uint64_t linear)
{
    const uint64_t begin = stamp();

    invpcid(type, pcid, linear);
    log_event(0x14, begin, stamp());
    log_field(type, 1);
    log_field(pcid, 2);
    log_field(linear, 8);
    log_end();
}

void set_pge_at_once(uint64_t pge)
{
    const uint64_t cr4 = (read_cr4() & ~(uint64_t)CR4_PGE) | (pge ? CR4_PGE : 0);
    const uint64_t begin = stamp();

    write_cr4(cr4);
    log_short(0x15, begin, stamp(), pge, 1);
    own()->pge = pge;
}

static uint64_t code_of(const struct access *access)
{
    static const uint8_t *const stubs[] = {stamped_read, stamped_write, stamped_fetch,
                                           stamped_implicit};

    return place_of_stub(stubs[access->operation], access->is_user);
}

static void log_access(uint32_t flags, uint64_t linear, uint64_t outcome, uint64_t value)
{
    log_event(0x11, own()->begin, own()->end);
    log_field(flags, 1);
    log_field(linear, 8);
    log_field(outcome, 1);
    log_field(value, outcome ? 2 : 8);
    log_end();
}

int access_at_once(const struct access *access)
{
    struct processor *const processor = own();
    const uint64_t linear = linear_of(access), value = value_of(access);
    const uint64_t operand[6] = {code_of(access), linear, value,
                                 FLAGS_AT_REST | (access->ac ? FLAGS_AC : 0),
                                 (uint64_t)access->is_user, access->operation == LOAD_LIMIT};

    processor->counter = access->is_user ? COUNTER_OF_RING_3 : (uint64_t)counter_page;
    follow_access(processor, operand);
    if (processor->vector == PAGE_FAULT && processor->fault_address == linear) {
        log_access(flags_of(access), linear, 1, processor->error);
        if (!allows(BARE_FAULTS))
            invalidate_page_at_once(linear);
        return 0;
    }
    if (processor->vector != INVALID_OPCODE)
        stop_by_vector(processor, linear);
    log_access(flags_of(access), linear, 0, answer_of(access, processor, value));
    return 1;
}
