/* SPDX-License-Identifier: MIT OR Apache-2.0 */
/*
 * pcid_tables.h: records the guest's paging tables while the guest runs, for recorders that see
 * every walk and every store, such as emulators.
 *
 * One header, for kernels too: C99 or C++, no variable of its own, no library, and memory only from
 * the caller. It writes to a record of emit/pcid_record.h, version 1 or 2:
 *
 *     pcid_tables_begin(&tables, &record, &source, frames, frame_count, roots);
 *     pcid_tables_root(&tables, cpu, cr3);                     at the start, and at a MOV to CR3
 *     pcid_tables_store(&tables, cpu, physical, bytes);        each store of the guest
 *     pcid_tables_read(&tables, cpu, level, entry, value);     each entry that a walk reads
 *     pcid_tables_assist(&tables, cpu, flags, linear, entry);  the walk sets A, or A and D
 *     pcid_tables_settle(&tables, cpu);                        before any other event
 *
 * No table is recorded at the start. When a walk first reads a frame as a table, the frame's words
 * are recorded as writes, and from then on each store to it. The header counts the table words that
 * lead to a frame. A frame to which neither a word nor a CR3 leads is no table any more: its stores
 * are left out, and its words are compared again when a walk comes back to it. The record stays
 * true whatever the header takes for a table, because each entry is compared when a walk reads it.
 *
 * That comparison is also the recorder's test of itself: `unseen` counts the entries whose value
 * was not the recorded one. It must be 0. Otherwise a store reached memory without a call of
 * pcid_tables_store.
 *
 * Each call but the first two answers PCID_RECORD_TAKEN, what a call on the record answered that
 * was not taken, or PCID_TABLES_NO_MEMORY. Then the record lacks an event: end it.
 *
 * The lock is the caller's, and is that of the record.
 */
#ifndef PCID_TABLES_H
#define PCID_TABLES_H

#include "pcid_record.h"

#ifdef __cplusplus
extern "C" {
#endif

/* The caller's `page` gave no memory. */
#define PCID_TABLES_NO_MEMORY 20u

/* The words that may have been stored to since the last call that settled. */
#define PCID_TABLES_QUEUE 256u

/* What the caller provides. `context` is passed to both. */
struct pcid_tables_source {
    void *context;
    /* The aligned 8-byte word of the guest's memory at this physical address, as it is now. Called
     * only for addresses within the frames. */
    uint64_t (*word)(void *context, uint64_t address);
    /* 512 words, all 0, that the tables keep. NULL where there is no memory. */
    uint64_t *(*page)(void *context);
};

/* A frame of 4 KB of the guest's memory. Bytes that are all 0 stand for one that never was a
 * table. */
struct pcid_tables_frame {
    uint64_t *words; /* as they were recorded; kept when the frame is no table any more */
    uint32_t uses;   /* words of tables that lead here */
    uint32_t level;  /* of the table that it is, 1 to 4; 0 where it is none now */
};

/* The tables of a record. The caller owns it, and changes nothing in it. */
struct pcid_tables {
    struct pcid_record *record;
    const struct pcid_tables_source *source;
    struct pcid_tables_frame *frames;
    uint64_t frame_count;
    uint64_t *roots;       /* of each processor, the frame that its CR3 names */
    uint64_t unseen;       /* entries that a walk read with another value than the recorded one */
    uint64_t unseen_entry; /* the address of the last of them */
    uint32_t count;        /* words in the queue */
    uint64_t queue[PCID_TABLES_QUEUE]; /* addresses of words to compare with memory */
};

/* What follows up to pcid_tables_begin, with names that end in `_`, is not for callers. */

/* The bits in which a change counts: A and D do not in version 1. */
static inline uint64_t pcid_tables_mask_(const struct pcid_tables *tables)
{
    return pcid_record_has_assists_(tables->record) ? ~(uint64_t)0 : ~(uint64_t)0x60;
}

static inline uint64_t *pcid_tables_word_(const struct pcid_tables *tables, uint64_t address)
{
    return &tables->frames[address >> 12].words[address >> 3 & 511];
}

static inline int pcid_tables_is_root_(const struct pcid_tables *tables, uint64_t frame)
{
    uint32_t k;

    for (k = 0; k < tables->record->processors; k++)
        if (tables->roots[k] == frame)
            return 1;
    return 0;
}

/* The frame of the table that an entry of a table of this level leads to, or NULL. */
static inline struct pcid_tables_frame *pcid_tables_below_(const struct pcid_tables *tables,
                                                           uint64_t entry, uint32_t level)
{
    const uint64_t frame = (entry & 0xFFFFFFFFFF000) >> 12;
    const int is_large = level < 4 && (entry & 0x80) != 0;

    if (level < 2 || (entry & 1) == 0 || is_large || frame >= tables->frame_count)
        return NULL;
    return &tables->frames[frame];
}

/* The frame is no table any more, nor are those of lower levels to which nothing else leads.
 * The level falls with each call, so that there are at most four. */
static inline void pcid_tables_forget_(struct pcid_tables *tables, struct pcid_tables_frame *frame)
{
    const uint32_t level = frame->level;
    uint32_t k;

    frame->level = 0;
    for (k = 0; k < 512; k++) {
        struct pcid_tables_frame *below = pcid_tables_below_(tables, frame->words[k], level);

        if (below == NULL || --below->uses > 0 || below->level == 0 || below->level >= level)
            continue;
        if (!pcid_tables_is_root_(tables, (uint64_t)(below - tables->frames)))
            pcid_tables_forget_(tables, below);
    }
}

/* The word of a table has this value now: records it where that is a change. */
static inline unsigned pcid_tables_change_(struct pcid_tables *tables, uint32_t processor,
                                           uint64_t address, uint64_t value)
{
    uint64_t *word = pcid_tables_word_(tables, address);
    const uint64_t old = *word;
    const uint32_t level = tables->frames[address >> 12].level;
    struct pcid_tables_frame *before = pcid_tables_below_(tables, old, level);
    struct pcid_tables_frame *after = pcid_tables_below_(tables, value, level);

    *word = value;
    if (after != NULL)
        after->uses++;
    if (before != NULL && --before->uses == 0 && before->level != 0 &&
        !pcid_tables_is_root_(tables, (uint64_t)(before - tables->frames)))
        pcid_tables_forget_(tables, before);
    if (((old ^ value) & pcid_tables_mask_(tables)) == 0)
        return PCID_RECORD_TAKEN;
    return pcid_record_write(tables->record, processor, address, value);
}

/* The frame is a table of this level from now on: counts what its recorded words lead to, then
 * records those that memory has with other values. */
static inline unsigned pcid_tables_adopt_(struct pcid_tables *tables, uint32_t processor,
                                          uint64_t number, uint32_t level)
{
    struct pcid_tables_frame *frame = &tables->frames[number];
    unsigned status = PCID_RECORD_TAKEN;
    uint32_t k;

    if (frame->words == NULL)
        frame->words = tables->source->page(tables->source->context);
    if (frame->words == NULL)
        return PCID_TABLES_NO_MEMORY;
    frame->level = level;
    for (k = 0; k < 512; k++) {
        struct pcid_tables_frame *below = pcid_tables_below_(tables, frame->words[k], level);

        if (below != NULL)
            below->uses++;
    }
    for (k = 0; k < 512 && status == PCID_RECORD_TAKEN; k++) {
        const uint64_t address = (number << 12) + 8 * k;

        status = pcid_tables_change_(tables, processor, address,
                                     tables->source->word(tables->source->context, address));
    }
    return status;
}

/*
 * Begins with no table. `record` is open. `frames` has `frame_count` elements, all bytes 0, one for
 * each 4 KB of the guest's memory from physical address 0 on. `roots` has an element for each
 * processor of the record; call pcid_tables_root for each of them next. `source` is kept.
 */
static inline void pcid_tables_begin(struct pcid_tables *tables, struct pcid_record *record,
                                     const struct pcid_tables_source *source,
                                     struct pcid_tables_frame *frames, uint64_t frame_count,
                                     uint64_t *roots)
{
    uint32_t k;

    tables->record = record;
    tables->source = source;
    tables->frames = frames;
    tables->frame_count = frame_count;
    tables->roots = roots;
    tables->unseen = 0;
    tables->unseen_entry = 0;
    tables->count = 0;
    for (k = 0; k < record->processors; k++)
        roots[k] = 0;
}

/* The processor's CR3 has this value now. Called beside pcid_record_mov_cr3. */
static inline void pcid_tables_root(struct pcid_tables *tables, uint32_t processor, uint64_t cr3)
{
    tables->roots[processor] = (cr3 & 0xFFFFFFFFFF000) >> 12;
}

/* Records what was stored to tables. Called just before each event that is recorded without a call
 * of this header. */
static inline unsigned pcid_tables_settle(struct pcid_tables *tables, uint32_t processor)
{
    unsigned status = PCID_RECORD_TAKEN;
    uint32_t k;

    for (k = 0; k < tables->count && status == PCID_RECORD_TAKEN; k++) {
        const uint64_t address = tables->queue[k], number = address >> 12;
        struct pcid_tables_frame *frame = &tables->frames[number];

        if (frame->level == 0)
            continue;
        if (frame->uses == 0 && !pcid_tables_is_root_(tables, number))
            pcid_tables_forget_(tables, frame);
        else
            status = pcid_tables_change_(tables, processor, address,
                                         tables->source->word(tables->source->context, address));
    }
    tables->count = 0;
    return status;
}

/*
 * A store of 1 to 64 bytes at this physical address, by a processor or a device. What is beyond the
 * page of its first byte is not looked at: a store over two pages is two stores. Called before or
 * after it reaches memory. It must have reached memory before the next call of this header for any
 * processor.
 *
 * Also PCID_RECORD_FIELD, for a store that is too long.
 */
static inline unsigned pcid_tables_store(struct pcid_tables *tables, uint32_t processor,
                                         uint64_t address, uint32_t bytes)
{
    const uint64_t first = address & ~(uint64_t)7;
    unsigned status = PCID_RECORD_TAKEN;
    uint64_t word;

    if (address >> 12 >= tables->frame_count || tables->frames[address >> 12].level == 0)
        return PCID_RECORD_TAKEN;
    /* Not between two words of one store, which may not have reached memory. */
    if (tables->count + 9 > PCID_TABLES_QUEUE)
        status = pcid_tables_settle(tables, processor);
    for (word = first; word < address + bytes && word >> 12 == address >> 12; word += 8) {
        if (tables->count > 0 && tables->queue[tables->count - 1] == word)
            continue;
        if (tables->count == PCID_TABLES_QUEUE)
            return PCID_RECORD_FIELD;
        tables->queue[tables->count++] = word;
    }
    return status;
}

/*
 * A walk of the processor reads the entry at this physical address, in a table of this level (4 to
 * 1), and gets this value. Called for each entry of a walk, in the order of the walk, before the
 * event of its access and before the walk sets A or D.
 */
static inline unsigned pcid_tables_read(struct pcid_tables *tables, uint32_t processor,
                                        uint32_t level, uint64_t address, uint64_t value)
{
    const uint64_t number = address >> 12;
    unsigned status = pcid_tables_settle(tables, processor);

    if (status != PCID_RECORD_TAKEN)
        return status;
    if (number < tables->frame_count) {
        struct pcid_tables_frame *frame = &tables->frames[number];

        /* Of a frame that serves at several levels the highest counts: its words lead on. */
        if (frame->level != 0 && frame->level < level)
            pcid_tables_forget_(tables, frame);
        if (frame->level == 0)
            status = pcid_tables_adopt_(tables, processor, number, level);
        if (status != PCID_RECORD_TAKEN)
            return status;
        if (((*pcid_tables_word_(tables, address) ^ value) & pcid_tables_mask_(tables)) == 0)
            return PCID_RECORD_TAKEN;
    }
    tables->unseen++;
    tables->unseen_entry = address;
    if (number >= tables->frame_count)
        return pcid_record_write(tables->record, processor, address, value);
    return pcid_tables_change_(tables, processor, address, value);
}

/*
 * The processor sets A in the entry at this physical address, and D too where `flags` has
 * PCID_RECORD_DIRTY. The fields are those of pcid_record_assist. A record of version 1 gets no
 * event. Called for each entry that a walk changes, before pcid_tables_settle is called again.
 */
static inline unsigned pcid_tables_assist(struct pcid_tables *tables, uint32_t processor,
                                          uint32_t flags, uint64_t linear, uint64_t entry)
{
    const uint64_t number = entry >> 12;

    if (number < tables->frame_count && tables->frames[number].level != 0)
        *pcid_tables_word_(tables, entry) |= (flags & PCID_RECORD_DIRTY) != 0 ? 0x60 : 0x20;
    if (!pcid_record_has_assists_(tables->record))
        return PCID_RECORD_TAKEN;
    return pcid_record_assist_unnamed(tables->record, processor, flags, linear, entry);
}

#ifdef __cplusplus
}
#endif

#endif
