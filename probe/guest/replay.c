/* SPDX-License-Identifier: MIT OR Apache-2.0 */
/*
 * Carries out the events of a record again, one at a time, and records what is answered now.
 * probe/replay.py lays them out at 0x700000: for each record a head, the addresses of its frames of
 * data, and its steps; behind them may stand what the accesses may return (case.c). What the
 * machine lacks ends the run, but for PCIDs, which are left out.
 */
#include "machine.h"
#include "probe.h"

#define REPLAY_ADDRESS 0x700000u
#define REPLAY_MAGIC 0x59414C5045525047u /* GPREPLAY */
#define KEEP (1ull << 63)

struct step {
    uint8_t what, processor, flags, type;
    uint32_t pcid;
    uint64_t address, value;
};
/* Those that are no event: the guest's own words in a root, and a slot in a table's frame. */
enum { OWN_WORDS = 1, SLOT_WORDS = 2 };
/* Of a write: a bit of the value is reserved that lies above the record's addresses. Of an access:
 * what carries it out. */
enum { HIGH_RESERVED = 1, IS_USER = 4, HAS_AC = 8 };

struct replay {
    uint64_t magic, size, processors, rules, m, needs, slot, tables, frames, steps;
    struct {
        uint64_t cr3, pge;
    } start[MOST_PROCESSORS];
    uint64_t frame[];
};
enum { NEEDS_GIGABYTE_PAGES = 1, NEEDS_PCIDS = 2 };

static const struct replay *find(uint64_t number)
{
    uint64_t address = REPLAY_ADDRESS;
    const struct replay *replay = (const struct replay *)word_at(address);

    for (; replay->magic == REPLAY_MAGIC && number > 0; number--) {
        address += replay->size;
        replay = (const struct replay *)word_at(address);
    }
    if (replay->magic != REPLAY_MAGIC)
        stop("stopped: no record to carry out stands at", address);
    return replay;
}

/* Of a machine that the record does not fit. */
static void lack(const char *why, uint64_t number)
{
    tell_text(is_case() ? "SKIP: " : "stopped: ");
    (is_case() ? skip_case : stop)(why, number);
}

static void take_rules(const struct replay *replay)
{
    rules.wp = replay->rules & 1;
    rules.nxe = replay->rules >> 1 & 1;
    rules.smep = replay->rules >> 2 & 1;
    rules.smap = replay->rules >> 3 & 1;
    rules.pcide = machine.pcid && allows(PCIDS);
    rules.invpcid = rules.pcide && machine.invpcid;
    if ((rules.smep && !machine.smep) || (rules.smap && !machine.smap))
        lack("the record has SMEP or SMAP, a machine without it; its settings", replay->rules);
    if ((replay->needs & NEEDS_GIGABYTE_PAGES) && !machine.gigabyte_pages)
        lack("the record has 1-GB pages, a machine without them", 0);
    if (replay->processors < 1 || replay->processors > settings.processors)
        stop("stopped: processors of the record", replay->processors);
    if ((replay->needs & NEEDS_PCIDS) && !rules.invpcid)
        say("left out: what the machine lacks of PCIDs and INVPCID, a bit each, from above",
            (uint64_t)(!rules.pcide << 1 | !rules.invpcid));
}

static uint64_t root_of(uint64_t operand)
{
    return rules.pcide ? operand : operand & ~(KEEP | 4095);
}

static void take_memory(const struct replay *replay)
{
    uint32_t k;

    count_of_processors = (uint32_t)replay->processors;
    count_of_tables = (uint32_t)replay->tables;
    frames.count = (uint32_t)replay->frames;
    if (replay->tables > MOST_TABLES || replay->frames > MOST_FRAMES)
        stop("stopped: frames of the record", replay->frames);
    for (k = 0; k < frames.count; k++)
        frames.address[k] = replay->frame[k];
    for (k = 0; k < count_of_processors; k++) {
        processors[k].processor.cr3 = root_of(replay->start[k].cr3);
        processors[k].processor.pge = replay->start[k].pge;
    }
}

/* A machine may have less memory than the frames take. */
static void look_for_frames(void)
{
    uint64_t slot;
    uint32_t k;

    for (k = 0; k < frames.count; k++) {
        slot = frames.address[k] + slot_offset();
        if (*word_at(slot) != slot_word(slot, 0))
            lack("the machine has no memory at", frames.address[k]);
    }
}

static uint32_t frame_of(uint64_t address)
{
    const uint64_t frame = (address - POOL_ADDRESS) >> 12;

    if (frame >= count_of_tables)
        stop("stopped: a word of no table, at", address);
    return (uint32_t)frame;
}

static void prepare(const struct step *step)
{
    const uint32_t frame = frame_of(step->address);
    unsigned word;

    if (step->what == OWN_WORDS) {
        write_word(frame, MEMORY_SLOT, home_root[MEMORY_SLOT]);
        write_word(frame, RING_3_SLOT, home_root[RING_3_SLOT]);
    }
    for (word = 0; word < 4 && step->what == SLOT_WORDS; word++)
        write_word(frame, slot_offset() / 8 + word,
                   slot_word(step->address + slot_offset(), word));
}

static void write_again(const struct replay *replay, const struct step *step)
{
    uint64_t value = step->value;

    if ((step->flags & HIGH_RESERVED) && replay->m != machine.m) { /* what is reserved here */
        if (machine.m >= 52)
            lack("no bit is reserved for MAXPHYADDR", machine.m);
        value = (value & ~((1ull << 52) - (1ull << replay->m))) | 1ull << machine.m;
    }
    write_word(frame_of(step->address), (step->address & 4095) / 8, value);
}

/* The flags of an assist whose access is not carried out again are set by a write. */
static void set_flags(const struct step *step)
{
    const uint32_t frame = frame_of(step->address);
    const uint64_t index = (step->address & 4095) / 8, word = held[frame][index];

    if ((word | step->value) != word)
        write_word(frame, index, word | step->value);
}

static void access_again(const struct step *step)
{
    const struct access access = {(enum operation)(step->flags & 3), (step->flags & IS_USER) != 0,
                                  (step->flags & HAS_AC) != 0, step->address & ~4095ull};

    if (allows(CLEAR_FLAG_FAULTS) ||
        !faults_at_clear_flag(processors[acting].processor.cr3, access.page + slot_offset(),
                              flags_of(&access)))
        access_page(&access);
    else if (is_case())
        lack("a fault whose walk meets A=0 is not judged, of the page", access.page);
}

static void carry_out_again(const struct replay *replay, const struct step *step)
{
    acting = step->processor;
    switch (step->what) {
    case 0x10:
        write_again(replay, step);
        break;
    case 0x11:
        access_again(step);
        break;
    case 0x12:
        load_cr3(root_of(step->address));
        break;
    case 0x13:
        invalidate_page(step->address);
        break;
    case 0x14:
        if (rules.invpcid)
            invalidate_pcid(step->type, step->pcid, step->address);
        break;
    case 0x15:
        set_pge(step->value);
        break;
    case 0x16:
        set_flags(step);
        break;
    default:
        stop("stopped: a step of kind", step->what);
    }
}

void run_replay(uint64_t number)
{
    const struct replay *const replay = find(number);
    const struct step *const step = (const struct step *)&replay->frame[replay->frames];
    uint64_t k;

    rest_all();
    take_rules(replay);
    take_memory(replay);
    set_slot(replay->slot);
    begin_frames();
    if (is_case())
        look_for_frames();
    begin_words();
    acting = 0;
    begin_header();
    for (k = 0; k < replay->steps && step[k].what <= SLOT_WORDS; k++)
        prepare(&step[k]);
    begin_all();
    visit_ring_3();
    if (is_case())
        begin_case(&step[replay->steps], (uint64_t)replay + replay->size -
                                             (uint64_t)&step[replay->steps]);
    for (; k < replay->steps; k++)
        carry_out_again(replay, &step[k]);
}
