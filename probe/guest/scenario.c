/* SPDX-License-Identifier: MIT OR Apache-2.0 */
/* Random runs, one processor at a time. Each event is a segment, and so put at once: a crash loses
 * none. */
#include "probe.h"

enum { SEGMENT = 1 };

static uint8_t buffer[PCID_RECORD_BYTES(2, SEGMENT)];

/* The settings of a seed: its low bits, so that 16 seeds in a row have all of them. */
void choose_rules(uint64_t seed)
{
    rules.wp = seed & 1;
    rules.nxe = seed >> 1 & 1;
    rules.smep = (seed >> 2 & 1) != 0 && machine.smep;
    rules.smap = (seed >> 3 & 1) != 0 && machine.smap;
    rules.pcide = machine.pcid && allows(PCIDS);
    rules.invpcid = rules.pcide && machine.invpcid;
    is_self_mapped = allows(SELF_MAPS) && allows(RESERVED_BITS) && percent(33);
}

static void choose_starts(void)
{
    uint32_t k;

    for (k = 0; k < count_of_processors; k++) {
        processors[k].processor.cr3 = POOL_FRAME(0) | some_pcid();
        processors[k].processor.pge = allows(GLOBAL_PAGES) && percent(75);
    }
}

/* Of processors whose CR3 and PGE are chosen. */
void begin_header(void)
{
    struct pcid_record_start start[MOST_PROCESSORS];
    const struct pcid_record_header header = {
        (uint32_t)settings.version,
        machine.m,
        (uint32_t)(rules.wp | rules.nxe << 1 | rules.smep << 2 | rules.smap << 3),
        count_of_processors,
        SEGMENT,
        start};
    uint32_t k;

    for (k = 0; k < count_of_processors; k++) {
        start[k].cr3 = processors[k].processor.cr3;
        start[k].pge = (uint32_t)processors[k].processor.pge;
    }
    taken(pcid_record_begin(&record, &header, buffer, sizeof buffer, put, NULL));
}

/* The words of the guest's own slots, and those of slots in table frames. */
static void write_own_words(void)
{
    uint32_t frame, word;

    for (frame = 0; frame < ROOTS; frame++) {
        write_word(frame, MEMORY_SLOT, home_root[MEMORY_SLOT]);
        write_word(frame, RING_3_SLOT, home_root[RING_3_SLOT]);
    }
    for (frame = 0; frame < POOL && is_self_mapped; frame++)
        for (word = 0; word < 4; word++)
            write_word(frame, slot_offset() / 8 + word,
                       slot_word(POOL_FRAME(frame) + slot_offset(), word));
}

/* All processors on the guest's own tables. */
void rest_all(void)
{
    uint32_t k;

    for (k = 0; k < count_of_processors; k++)
        carry_out_by(k, REST, 0, 0, 0, 0, 0, 0);
}

/* All on the record's. */
void begin_all(void)
{
    uint32_t k;

    for (k = 0; k < count_of_processors; k++)
        carry_out_by(k, BEGIN, processors[k].processor.cr3, processors[k].processor.pge, 0, 0, 0,
                     0);
}

void begin_record(uint64_t seed)
{
    seed_random(seed);
    rest_all();
    choose_rules(seed);
    choose_pages(PAGES);
    choose_slot();
    begin_frames();
    begin_words();
    acting = 0;
    choose_starts();
    begin_header();
    write_own_words();
    begin_all();
}

static void write_all_tables(void)
{
    unsigned level, frame, k;

    for (level = 4; level > 0; level--)
        for (frame = 0; frame < count_of_level[level]; frame++)
            for (k = 0; k < count_of_indices[level]; k++)
                write_word(first_of_level[level] + frame, indices[level][k],
                           random_entry(level, percent(80)));
}

static void random_write(void)
{
    const uint64_t chance = below(100);
    const unsigned level = chance < 52 ? 1 : chance < 77 ? 2 : chance < 92 ? 3 : 4;
    uint32_t frame;
    uint64_t index;
    unsigned at;

    if (percent(90)) {
        at = find_word(processors[acting].processor.cr3, likely_page(), level, &frame, &index);
        write_word(frame, index, random_entry(at, percent(at == level ? 60 : 75)));
    } else {
        frame = first_of_level[level] + (uint32_t)below(count_of_level[level]);
        index = indices[level][below(count_of_indices[level])];
        write_word(frame, index, random_entry(level, 0));
    }
}

static void random_invalidate_pcid(void)
{
    const struct invalidation chosen = random_invalidation(processors[acting].processor.cr3);

    invalidate_pcid(chosen.type, chosen.pcid, chosen.linear);
}

static int may_be_done(const struct access *access)
{
    return is_kind_allowed(access) &&
           (allows(CLEAR_FLAG_FAULTS) ||
            !faults_at_clear_flag(processors[acting].processor.cr3, access->page + slot_offset(),
                                  flags_of(access)));
}

static void access_at_random(void)
{
    const struct access access = random_access();

    if (!may_be_done(&access))
        return;
    note_page(access.page);
    if (access_page(&access))
        note_answered(&access);
}

/* A third of the seeds each invalidate often, less and seldom. */
void run_random(uint64_t seed)
{
    static const uint8_t pages_share[] = {10, 6, 3}, cr3_share[] = {8, 5, 2};
    const uint64_t pages_to = 24 + pages_share[seed % 3];
    const uint64_t pcids_to = pages_to + pages_share[seed % 3];
    const uint64_t cr3_to = pcids_to + cr3_share[seed % 3], pge_to = cr3_to + 2;
    uint64_t chance;

    write_all_tables();
    while (pcid_record_moment(&record) < settings.events) {
        if (count_of_processors > 1 && percent(60))
            acting = (uint32_t)below(count_of_processors);
        chance = below(100);
        if (chance < 24)
            random_write();
        else if (chance < pages_to || (chance < pcids_to && !rules.invpcid))
            invalidate_page(address_to_invalidate());
        else if (chance < pcids_to)
            random_invalidate_pcid();
        else if (chance < cr3_to)
            load_cr3(random_cr3(processors[acting].processor.cr3));
        else if (chance < pge_to && allows(GLOBAL_PAGES))
            set_pge(processors[acting].processor.pge ^ percent(60));
        else
            access_at_random();
    }
}
