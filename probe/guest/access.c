/* SPDX-License-Identifier: MIT OR Apache-2.0 */
/* Accesses: what is carried out, what answered, and which flags of entries were set meanwhile. */
#include "machine.h"
#include "probe.h"

enum { ACCESSED = 1 << 5, DIRTY = 1 << 6, MOST_CHANGES = 16 };

uint32_t flags_of(const struct access *access)
{
    static const uint32_t operations[] = {PCID_RECORD_READ, PCID_RECORD_WRITE, PCID_RECORD_FETCH,
                                          PCID_RECORD_READ};

    if (access->operation == LOAD_LIMIT) /* implicit: a supervisor access with ac 0 */
        return PCID_RECORD_READ;
    return operations[access->operation] | (access->is_user ? PCID_RECORD_USER : 0) |
           (access->ac ? PCID_RECORD_AC : 0);
}

/* Reads, fetches and implicit accesses are of the slot, which stays where processors act at once:
 * each of them writes a word of its own behind it. */
uint64_t linear_of(const struct access *access)
{
    static const uint64_t offsets[] = {0, 24, 8, 16};

    return access->page + slot_offset() + offsets[access->operation] +
           (access->operation == WRITE && acts_at_once() ? 8 + 8 * own_number() : 0);
}

uint64_t place_of_stub(const uint8_t *stub, int is_user)
{
    return is_user ? RING_3 + (uint64_t)(stub - stubs_begin) : (uint64_t)stub;
}

static uint64_t code_of(const struct access *access)
{
    static const uint8_t *const stubs[] = {stub_read, stub_write, NULL, stub_implicit};

    return access->operation == FETCH ? linear_of(access)
                                      : place_of_stub(stubs[access->operation], access->is_user);
}

/* The value that a write writes: no other word has it. The stub of implicit accesses takes the
 * selector of the local table's first descriptor. */
uint64_t value_of(const struct access *access)
{
    static uint64_t writes[MOST_PROCESSORS];
    const uint64_t number = own_number();

    if (access->operation == WRITE)
        return 0x5EED000000000001u | number << 40 | ++writes[number] << 8;
    return 7;
}

static uint64_t written_at(uint64_t value, uint64_t linear)
{
    uint64_t physical = 0;
    const int count = find_written(value, linear & 4095, &physical);

    if (count != 1)
        stop("stopped: frames that a write reached", (uint64_t)count);
    return physical;
}

uint64_t answer_of(const struct access *access, const struct processor *processor,
                   uint64_t value)
{
    const uint64_t linear = linear_of(access);

    switch (access->operation) {
    case WRITE:
        return written_at(value, linear);
    case FETCH:
        return (uint32_t)processor->rax;
    case LOAD_LIMIT:
        if ((processor->flags & ZERO_FLAG) == 0)
            stop("stopped: no descriptor where an implicit access read, linear", linear);
        return processor->rax << 12 | (linear & 4095);
    default:
        return processor->rax;
    }
}

void stop_by_vector(const struct processor *processor, uint64_t linear)
{
    say("an access of linear address", linear);
    say("RIP", processor->rip);
    say("CR2", processor->fault_address);
    stop("stopped: it gave vector", processor->vector);
}

/* A word that a processor set flags of, and the first and the last level at which the walk that is
 * done now reads it: two where a frame serves at two levels. */
struct change {
    uint32_t frame;
    uint64_t index, set;
    unsigned first, last;
};

static void find_levels(uint64_t linear, struct change *change)
{
    const uint64_t cr3 = processors[acting].processor.cr3;
    uint32_t frame;
    uint64_t index;
    unsigned level;

    change->first = change->last = 0;
    for (level = 4; level > 0; level--)
        if (find_word(cr3, linear, level, &frame, &index) == level && frame == change->frame &&
            index == change->index) {
            change->first = change->first == 0 ? level : change->first;
            change->last = level;
        }
    if (change->first == 0)
        change->first = change->last = level_of_frame(change->frame);
}

static void find_flags(uint64_t linear, struct change *change)
{
    const uint64_t before = held[change->frame][change->index];
    const uint64_t address = POOL_FRAME(change->frame) + 8 * change->index;
    const uint64_t now = *word_at(address);

    change->set = now & ~before;
    if ((now ^ before) != change->set || (change->set & ~(uint64_t)(ACCESSED | DIRTY)) != 0)
        stop("stopped: a table word was changed, at", address);
    find_levels(linear, change);
}

/* What is set of the word at this level: A where the walk reads it first, D where it ends. */
static void record_change(const struct change *change, unsigned level, uint32_t flags,
                          uint64_t linear)
{
    const uint64_t set = (change->first == level ? change->set & ACCESSED : 0) |
                         (change->last == level ? change->set & DIRTY : 0);

    held[change->frame][change->index] |= set;
    if (set != 0 && settings.version == 2 && is_case())
        note_change(POOL_FRAME(change->frame) + 8 * change->index, set);
    if (set != 0 && settings.version == 2)
        taken(pcid_record_assist_unnamed(&record, acting,
                                         flags | (set & DIRTY ? PCID_RECORD_DIRTY : 0), linear,
                                         POOL_FRAME(change->frame) + 8 * change->index));
}

/* Flags that were set meanwhile: an assist for each, the upper levels first. */
static void record_changes(uint32_t flags, uint64_t linear)
{
    struct change change[MOST_CHANGES];
    uint32_t count = 0, at, k;
    unsigned level;

    for (at = 0; count < MOST_CHANGES && next_changed(&at, &change[count].frame,
                                                      &change[count].index); at++)
        find_flags(linear, &change[count++]);
    for (level = 4; level > 0; level--)
        for (k = 0; k < count; k++)
            record_change(&change[k], level, flags, linear);
}

/* In the place of moments, which nobody names: one 0, and of an implicit access, whose flags don't
 * tell what carried it out, a second number that does. probe/records.py reads it as a note. */
static uint32_t marks_of(const struct access *access, uint32_t marks[2])
{
    marks[0] = 0;
    marks[1] = 1u | (access->is_user ? 2u : 0) | (access->ac ? 4u : 0);
    return access->operation == LOAD_LIMIT ? 2 : 1;
}

static void record_answer(const struct access *access, uint64_t answer)
{
    uint32_t marks[2];
    const uint32_t count = marks_of(access, marks);

    taken(pcid_record_answer(&record, acting, flags_of(access), linear_of(access), answer, marks,
                             count));
    if (is_case())
        judge(0, answer & ~4095ull);
}

static void record_fault(const struct access *access, const struct processor *processor)
{
    const uint64_t linear = linear_of(access);
    uint32_t marks[2];
    const uint32_t count = marks_of(access, marks);

    if (processor->fault_address != linear) {
        say("an access of linear address", linear);
        stop("stopped: it left in CR2", processor->fault_address);
    }
    taken(pcid_record_fault(&record, acting, flags_of(access), linear, (uint32_t)processor->error,
                            marks, count));
    if (is_case())
        judge(1, processor->error);
}

/* Each processor reads the page of ring 3's code as ring 3, which is in no record. The first time,
 * a system with shadow tables makes those of that page, and may drop stale entries with it, which
 * a long run would have kept: a replay of few events would not show them then. */
void visit_ring_3(void)
{
    const uint64_t code = place_of_stub(stub_read, 1);
    const struct processor *processor;
    uint32_t number;

    for (number = 0; number < count_of_processors; number++) {
        processor = carry_out_by(number, ACCESS, code, RING_3, 0, FLAGS_AT_REST, 1, 0);
        if (processor->vector != INVALID_OPCODE)
            stop("stopped: ring 3 gave vector", processor->vector);
    }
}

int access_page(const struct access *access)
{
    const uint64_t linear = linear_of(access), value = value_of(access);
    const uint32_t flags = flags_of(access);
    const struct processor *const processor =
        carry_out_by(acting, ACCESS, code_of(access), linear, value,
                     FLAGS_AT_REST | (access->ac ? FLAGS_AC : 0), (uint64_t)access->is_user,
                     access->operation == LOAD_LIMIT);
    const int is_fault = processor->vector == PAGE_FAULT;
    uint64_t answer;

    if (!is_fault && processor->vector != INVALID_OPCODE)
        stop_by_vector(processor, linear);
    answer = is_fault ? 0 : answer_of(access, processor, value); /* puts back what was written */
    record_changes(flags, linear);
    if (!is_fault) {
        record_answer(access, answer);
        return 1;
    }
    record_fault(access, processor);
    if (!allows(BARE_FAULTS))
        invalidate_page(linear);
    return 0;
}
