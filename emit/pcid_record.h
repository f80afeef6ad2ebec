/* SPDX-License-Identifier: MIT OR Apache-2.0 */
/*
 * pcid_record.h: writes the record of a run, version 1 to 4, for pcid-audit.
 *
 * One header, for kernels too: C99 or C++, no allocation, no variable of its own, no library, and
 * no header but <stdint.h> and <stddef.h>, or <linux/types.h> in Linux and <xen/types.h> in Xen,
 * which have none of these. docs/FORMAT.md says what the bytes are, and
 * docs/RECORDING.md what to record and which moments to name.
 *
 *     static uint8_t buffer[PCID_RECORD_BYTES(1, 1024)];
 *     struct pcid_record record;
 *
 *     pcid_record_begin(&record, &header, buffer, sizeof buffer, put, context);
 *     pcid_record_write(&record, 0, 0x1000, 0x2007);          one call an event
 *     moment = pcid_record_moment(&record);                   an entry that is read now
 *     pcid_record_answer(&record, 0, PCID_RECORD_USER, 0x5123, 0x9123, moments, 4);
 *     pcid_record_end(&record);
 *
 * Who keeps no moments calls pcid_record_answer_unnamed and its two like, which take none: such a
 * record is for `pcid-audit certify`, which looks for moments itself.
 *
 * Versions 3 and 4 are 1 and 2 for events that overlap, of which no order is known: an event is
 * recorded once it has ended, and pcid_record_began says which events had ended when it began.
 * Accesses and assists name no moments there. These records are for `pcid-audit certify` too, which
 * looks for an order.
 *
 *     began = pcid_record_moment(&record);                    before the instruction
 *     pcid_record_began(&record, began);                      behind it, under the lock
 *     pcid_record_invlpg(&record, 0, 0x5000);
 *
 * Each call answers an enum pcid_record_status: PCID_RECORD_TAKEN (0) or why it was not taken. A
 * call that answers one of the codes 1 to 9 has changed nothing: the record goes on with the next
 * event. Events are numbered from 0, in the order of the calls that were taken.
 *
 * The lock is the caller's: calls on one record never overlap, and an event is recorded under the
 * same lock as its effect, so that the record has the order of the effects. In versions 3 and 4 the
 * effect needs no lock, and the calls alone do. `put` is called from within calls, thus under that
 * lock, and makes no call on the record.
 *
 * Numbers are passed wider than the record has them, so that what is out of range is refused and
 * never cut. Pointers that are passed must be valid; nothing else of what a caller passes can make
 * a call read or write anything but the record, its buffer and the moments that were named.
 */
#ifndef PCID_RECORD_H
#define PCID_RECORD_H

#if defined(__XEN__)
#include <xen/types.h>
#elif defined(__KERNEL__)
#include <linux/types.h>
#else
#include <stddef.h>
#include <stdint.h>
#endif

#ifdef __cplusplus
extern "C" {
#endif

/* The most events that a record may have. */
#define PCID_RECORD_MOST_EVENTS 4294967295u

/* The bytes that a segment of `n` events may need, in a record of `version`: the size of the buffer
 * for segment size `n`. A constant where its operands are. `n` is 1 to 65,536. */
#define PCID_RECORD_BYTES(version, n)                                      \
    ((size_t)9 + (size_t)(n) * ((version) == 1   ? (size_t)37              \
                                : (version) == 2 ? (size_t)38              \
                                : (version) == 3 ? (size_t)24 : (size_t)25))

/* Settings of the header: the sum of those that are on. */
#define PCID_RECORD_WP 0x1u   /* CR0.WP */
#define PCID_RECORD_NXE 0x2u  /* EFER.NXE */
#define PCID_RECORD_SMEP 0x4u /* CR4.SMEP */
#define PCID_RECORD_SMAP 0x8u /* CR4.SMAP */

/* Flags of an access: one of the operations, and the sum of what else holds. */
#define PCID_RECORD_READ 0x0u
#define PCID_RECORD_WRITE 0x1u  /* also of a read-modify-write */
#define PCID_RECORD_FETCH 0x2u  /* of an instruction */
#define PCID_RECORD_USER 0x4u   /* a user access; without it a supervisor one */
#define PCID_RECORD_AC 0x8u     /* explicit, with EFLAGS.AC=1 */
#define PCID_RECORD_DIRTY 0x10u /* of an assist alone: it sets D beside A. Only of a write */

/* What a call answers. A call looks for them in the order that is given at each, and answers the
 * first that holds. */
enum pcid_record_status {
    /* The event was taken. Its number is what pcid_record_moment gave before the call. */
    PCID_RECORD_TAKEN = 0,

    /* The event breaks this rule of the format, and none of a lower number. */
    PCID_RECORD_RULE_1 = 1, /* the processor is not below the header's number of processors */
    PCID_RECORD_RULE_2 = 2, /* a table word's address: no multiple of 8, or not below 2^M */
    PCID_RECORD_RULE_3 = 3, /* a linear address is not canonical: bits 63:47 are not alike */
    PCID_RECORD_RULE_4 = 4, /* a MOV to CR3 whose operand has one of the bits 62:M */
    PCID_RECORD_RULE_5 = 5, /* an INVPCID's type is above 3 or its PCID above 4,095; or a field
                               that its type does not use is not 0 */
    PCID_RECORD_RULE_6 = 6, /* flags of an access or an assist that are none */

    /* A field that the record can't hold: a count of moments other than 1 to 4, and in versions 3
     * and 4 other than 0; an error code above 0xFFFF; a PGE other than 0 and 1; a moment at which
     * an event began that is still to come, or any in versions 1 and 2. Looked for before the
     * rules. */
    PCID_RECORD_FIELD = 7,
    /* An assist, in a record of version 1 or 3. Looked for before PCID_RECORD_FIELD. */
    PCID_RECORD_NO_ASSIST = 8,
    /* The record has 4,294,967,295 events. End it, and begin another. Looked for before
     * PCID_RECORD_NO_ASSIST. */
    PCID_RECORD_FULL = 9,

    /* By pcid_record_begin alone, in this order. No byte was put. */
    PCID_RECORD_BAD_VERSION = 10,  /* the version is none of 1 to 4 */
    PCID_RECORD_BAD_HEADER = 11,   /* another field of the header is out of range */
    PCID_RECORD_SMALL_BUFFER = 12, /* the buffer is below PCID_RECORD_BYTES(version, segment) */

    /* The record was ended or never begun: `begin` refused it, or its bytes are all 0. Looked for
     * first of all. */
    PCID_RECORD_CLOSED = 13,
    /* `put` failed, in this call or before. The record takes nothing any more: what `put` took is
     * a record whose tail is cut (emit/close.c closes it). Looked for first of all, and where
     * `put` fails in this call. */
    PCID_RECORD_PUT_FAILED = 14
};

/* Takes the next `count` bytes of the record, all of them. Answers 0 where it took them; any other
 * answer ends the record (PCID_RECORD_PUT_FAILED). `context` is what pcid_record_begin was passed.
 * Called by `begin` (the header, in one piece or more), by the event that fills a segment (the
 * whole segment, in one piece) and by `end` (the last segment if there is one, and 5 bytes). */
typedef int (*pcid_record_put)(void *context, const uint8_t *bytes, size_t count);

/* A processor at the start of the record. */
struct pcid_record_start {
    uint64_t cr3; /* bits 63:M are 0, bits M-1:12 the PML4 table, bits 11:0 the PCID */
    uint32_t pge; /* CR4.PGE: 0 or 1 */
};

/* What stands at the head of a record. Read by pcid_record_begin, and not kept. */
struct pcid_record_header {
    uint32_t version;    /* 1 to 4 */
    uint32_t m;          /* MAXPHYADDR in bits: 36 to 52 */
    uint32_t settings;   /* PCID_RECORD_WP and others: 0 to 0xF */
    uint32_t processors; /* 1 to 64; in versions 2 and 4 1 to 1,024 */
    uint32_t segment;    /* the segment size, in events: 1 to 65,536 */
    const struct pcid_record_start *start; /* one for each processor, processor 0 first */
};

/* A record that is being written. The caller owns it, and changes nothing in it. For who reads a
 * dump of its memory: the first `used` bytes of `buffer` are what was not yet put, and they are a
 * whole segment at every moment between two calls, with its count. */
struct pcid_record {
    uint8_t *buffer;
    size_t used;
    pcid_record_put put;
    void *context;
    uint32_t version;
    uint32_t m;
    uint32_t processors;
    uint32_t segment;  /* the segment size */
    uint32_t segments; /* segments that were put */
    uint32_t count;    /* events in the buffer */
    uint32_t events;   /* events that were taken, all in all */
    uint32_t back;     /* how many of them had not yet ended when the next one began */
    uint32_t open;     /* 1 from a `begin` that was taken to `end` or a failure of `put` */
    uint32_t failed;   /* 1 where `put` failed */
};

/* What follows up to `pcid_record_moment`, with names that end in `_`, is not for callers. */

static inline uint8_t *pcid_record_number_(uint8_t *at, uint64_t number, unsigned bytes)
{
    unsigned k;

    for (k = 0; k < bytes; k++)
        at[k] = (uint8_t)(number >> (8 * k));
    return at + bytes;
}

static inline uint8_t *pcid_record_moments_(uint8_t *at, const uint32_t *moments, uint32_t count)
{
    uint32_t k;

    if (count == 0)
        return at;
    at = pcid_record_number_(at, count, 1);
    for (k = 0; k < count; k++)
        at = pcid_record_number_(at, moments[k], 4);
    return at;
}

/* Versions 3 and 4 have spans in the place of moments. */
static inline int pcid_record_has_spans_(const struct pcid_record *record)
{
    return record->version >= 3;
}

static inline int pcid_record_has_assists_(const struct pcid_record *record)
{
    return record->version % 2 == 0;
}

/* The bytes of a processor's number, and of their count in the header. */
static inline unsigned pcid_record_width_(uint32_t version)
{
    return version % 2 == 1 ? 1 : 2;
}

static inline int pcid_record_is_count_(const struct pcid_record *record, uint32_t count)
{
    return pcid_record_has_spans_(record) ? count == 0 : count >= 1 && count <= 4;
}

static inline int pcid_record_is_canonical_(uint64_t linear)
{
    return linear >> 47 == 0 || linear >> 47 == 0x1FFFF;
}

static inline int pcid_record_is_word_(const struct pcid_record *record, uint64_t address)
{
    return address % 8 == 0 && address >> record->m == 0;
}

/* Puts the buffer's bytes below `end`. */
static inline enum pcid_record_status pcid_record_flush_(struct pcid_record *record,
                                                         const uint8_t *end)
{
    const size_t count = (size_t)(end - record->buffer);

    if (record->put(record->context, record->buffer, count) != 0) {
        record->open = 0;
        record->failed = 1;
        return PCID_RECORD_PUT_FAILED;
    }
    return PCID_RECORD_TAKEN;
}

/* Puts the segment at hand. */
static inline enum pcid_record_status pcid_record_seal_(struct pcid_record *record)
{
    const enum pcid_record_status status =
        pcid_record_flush_(record, record->buffer + record->used);

    if (status == PCID_RECORD_TAKEN) {
        record->segments++;
        record->count = 0;
        record->used = 0;
    }
    return status;
}

static inline enum pcid_record_status pcid_record_ready_(const struct pcid_record *record)
{
    if (record->open == 0)
        return record->failed == 0 ? PCID_RECORD_CLOSED : PCID_RECORD_PUT_FAILED;
    return record->events == PCID_RECORD_MOST_EVENTS ? PCID_RECORD_FULL : PCID_RECORD_TAKEN;
}

/* Lays the head of a segment, where one begins, and that of an event. */
static inline uint8_t *pcid_record_open_(struct pcid_record *record, unsigned tag,
                                         uint32_t processor)
{
    uint8_t *at = record->buffer;

    if (record->count == 0) {
        at = pcid_record_number_(at, 0x01, 1);
        at = pcid_record_number_(at, record->segments, 4);
        at = pcid_record_number_(at, 0, 4);
    } else {
        at += record->used;
    }
    at = pcid_record_number_(at, tag, 1);
    at = pcid_record_number_(at, processor, pcid_record_width_(record->version));
    return pcid_record_has_spans_(record) ? pcid_record_number_(at, record->back, 4) : at;
}

/* The event whose bytes end at `end` is taken. */
static inline enum pcid_record_status pcid_record_close_(struct pcid_record *record,
                                                         const uint8_t *end)
{
    record->used = (size_t)(end - record->buffer);
    record->count++;
    record->events++;
    record->back = 0;
    pcid_record_number_(record->buffer + 5, record->count, 4);
    return record->count < record->segment ? PCID_RECORD_TAKEN : pcid_record_seal_(record);
}

static inline enum pcid_record_status
pcid_record_access_(struct pcid_record *record, uint32_t processor, uint32_t flags,
                    uint64_t linear, unsigned outcome, uint64_t value, const uint32_t *moments,
                    uint32_t count)
{
    const enum pcid_record_status status = pcid_record_ready_(record);
    uint8_t *at;

    if (status != PCID_RECORD_TAKEN)
        return status;
    if (!pcid_record_is_count_(record, count) || (outcome == 1 && value > 0xFFFF))
        return PCID_RECORD_FIELD;
    if (processor >= record->processors)
        return PCID_RECORD_RULE_1;
    if (!pcid_record_is_canonical_(linear))
        return PCID_RECORD_RULE_3;
    if (flags > 0xF || (flags & 3) == 3)
        return PCID_RECORD_RULE_6;
    at = pcid_record_open_(record, 0x11, processor);
    at = pcid_record_number_(at, flags, 1);
    at = pcid_record_number_(at, linear, 8);
    at = pcid_record_number_(at, outcome, 1);
    at = pcid_record_number_(at, value, outcome == 1 ? 2 : 8);
    at = pcid_record_moments_(at, moments, count);
    return pcid_record_close_(record, at);
}

/*
 * The moment that is now: the number of the next event. A table entry that is read now, before the
 * next event is recorded, has this moment; so keep it with what the entry gives.
 */
static inline uint32_t pcid_record_moment(const struct pcid_record *record)
{
    return record->events;
}

/*
 * Begins a record, and puts its header. `buffer` has `size` bytes, at least
 * PCID_RECORD_BYTES(version, segment); record and buffer stay the record's until it ends. What
 * `record` held before is let go, also a record that was not ended.
 *
 * PCID_RECORD_BAD_VERSION, PCID_RECORD_BAD_HEADER, PCID_RECORD_SMALL_BUFFER,
 * PCID_RECORD_PUT_FAILED. Where it answers one of them the record takes no event.
 */
static inline enum pcid_record_status
pcid_record_begin(struct pcid_record *record, const struct pcid_record_header *header,
                  uint8_t *buffer, size_t size, pcid_record_put put, void *context)
{
    uint8_t *at = buffer;
    uint32_t k;

    record->open = 0;
    record->failed = 0;
    record->events = 0;
    record->segments = 0;
    record->count = 0;
    record->used = 0;
    record->back = 0;
    if (header->version < 1 || header->version > 4)
        return PCID_RECORD_BAD_VERSION;
    if (header->m < 36 || header->m > 52 || header->settings > 0xF)
        return PCID_RECORD_BAD_HEADER;
    if (header->processors < 1 || header->processors > (header->version % 2 == 1 ? 64u : 1024u))
        return PCID_RECORD_BAD_HEADER;
    if (header->segment < 1 || header->segment > 65536)
        return PCID_RECORD_BAD_HEADER;
    for (k = 0; k < header->processors; k++)
        if (header->start[k].cr3 >> header->m != 0 || header->start[k].pge > 1)
            return PCID_RECORD_BAD_HEADER;
    if (size < PCID_RECORD_BYTES(header->version, header->segment))
        return PCID_RECORD_SMALL_BUFFER;
    record->buffer = buffer;
    record->put = put;
    record->context = context;
    record->version = header->version;
    record->m = header->m;
    record->processors = header->processors;
    record->segment = header->segment;

    at = pcid_record_number_(at, 0x44524F4345524750, 8); /* PGRECORD */
    at = pcid_record_number_(at, header->version, 2);
    at = pcid_record_number_(at, header->m, 1);
    at = pcid_record_number_(at, header->settings, 1);
    at = pcid_record_number_(at, header->processors, pcid_record_width_(header->version));
    at = pcid_record_number_(at, header->segment, 4);
    for (k = 0; k < header->processors; k++) {
        if (size - (size_t)(at - buffer) < 9) {
            if (pcid_record_flush_(record, at) != PCID_RECORD_TAKEN)
                return PCID_RECORD_PUT_FAILED;
            at = buffer;
        }
        at = pcid_record_number_(at, header->start[k].cr3, 8);
        at = pcid_record_number_(at, header->start[k].pge, 1);
    }
    if (pcid_record_flush_(record, at) != PCID_RECORD_TAKEN)
        return PCID_RECORD_PUT_FAILED;
    record->open = 1;
    return PCID_RECORD_TAKEN;
}

/*
 * Versions 3 and 4: the next event that is taken began at `moment`: that is, pcid_record_moment
 * just before its instruction, so that the events with numbers below `moment` had ended and the
 * others that are recorded now had not. Called under the lock, just before the event's own call.
 * An event without it began when all before it had ended. A smaller number than it was is as sound:
 * it says less of the order. An event that is not taken leaves what was said for the next.
 *
 * PCID_RECORD_CLOSED, PCID_RECORD_FULL, PCID_RECORD_FIELD (versions 1 and 2; a moment above that
 * of now), PCID_RECORD_PUT_FAILED.
 */
static inline enum pcid_record_status pcid_record_began(struct pcid_record *record,
                                                        uint32_t moment)
{
    const enum pcid_record_status status = pcid_record_ready_(record);

    if (status != PCID_RECORD_TAKEN)
        return status;
    if (!pcid_record_has_spans_(record) || moment > record->events)
        return PCID_RECORD_FIELD;
    record->back = record->events - moment;
    return PCID_RECORD_TAKEN;
}

/*
 * A write changed the aligned 8-byte word at physical address `address`, a word of a paging table,
 * to `value`. `processor` is the one that wrote; it plays no part in judging, and is 0 for a
 * device. In versions 3 and 4 it tells which events come before, and a device has a number of its
 * own.
 *
 * PCID_RECORD_CLOSED, PCID_RECORD_FULL, rules 1 and 2, PCID_RECORD_PUT_FAILED.
 */
static inline enum pcid_record_status pcid_record_write(struct pcid_record *record,
                                                        uint32_t processor, uint64_t address,
                                                        uint64_t value)
{
    const enum pcid_record_status status = pcid_record_ready_(record);
    uint8_t *at;

    if (status != PCID_RECORD_TAKEN)
        return status;
    if (processor >= record->processors)
        return PCID_RECORD_RULE_1;
    if (!pcid_record_is_word_(record, address))
        return PCID_RECORD_RULE_2;
    at = pcid_record_open_(record, 0x10, processor);
    at = pcid_record_number_(at, address, 8);
    at = pcid_record_number_(at, value, 8);
    return pcid_record_close_(record, at);
}

/*
 * An access by `processor` to the byte at `linear` was answered: the byte's physical address is
 * `physical` (the page's address plus the offset). `flags` is the operation, PCID_RECORD_USER and
 * PCID_RECORD_AC. `moments` are `count` numbers, 1 to 4, one for each level that was read, level 4
 * first; in versions 3 and 4 `count` is 0, and `moments` is not looked at.
 *
 * PCID_RECORD_CLOSED, PCID_RECORD_FULL, PCID_RECORD_FIELD (count), rules 1, 3 and 6,
 * PCID_RECORD_PUT_FAILED. Which moments are named is not looked at: that is the auditor's.
 */
static inline enum pcid_record_status
pcid_record_answer(struct pcid_record *record, uint32_t processor, uint32_t flags, uint64_t linear,
                   uint64_t physical, const uint32_t *moments, uint32_t count)
{
    return pcid_record_access_(record, processor, flags, linear, 0, physical, moments, count);
}

/*
 * An access by `processor` to the byte at `linear` gave a page fault with this error code. All
 * else is as in pcid_record_answer.
 *
 * PCID_RECORD_CLOSED, PCID_RECORD_FULL, PCID_RECORD_FIELD (count; code above 0xFFFF), rules 1, 3
 * and 6, PCID_RECORD_PUT_FAILED.
 */
static inline enum pcid_record_status
pcid_record_fault(struct pcid_record *record, uint32_t processor, uint32_t flags, uint64_t linear,
                  uint32_t code, const uint32_t *moments, uint32_t count)
{
    return pcid_record_access_(record, processor, flags, linear, 1, code, moments, count);
}

/*
 * pcid_record_answer without moments: one moment, 0, stands in their place, and none in versions
 * 3 and 4.
 *
 * PCID_RECORD_CLOSED, PCID_RECORD_FULL, rules 1, 3 and 6, PCID_RECORD_PUT_FAILED.
 */
static inline enum pcid_record_status
pcid_record_answer_unnamed(struct pcid_record *record, uint32_t processor, uint32_t flags,
                           uint64_t linear, uint64_t physical)
{
    const uint32_t placeholder = 0;

    return pcid_record_answer(record, processor, flags, linear, physical, &placeholder,
                              !pcid_record_has_spans_(record));
}

/*
 * pcid_record_fault without moments.
 *
 * PCID_RECORD_CLOSED, PCID_RECORD_FULL, PCID_RECORD_FIELD (code above 0xFFFF), rules 1, 3 and 6,
 * PCID_RECORD_PUT_FAILED.
 */
static inline enum pcid_record_status
pcid_record_fault_unnamed(struct pcid_record *record, uint32_t processor, uint32_t flags,
                          uint64_t linear, uint32_t code)
{
    const uint32_t placeholder = 0;

    return pcid_record_fault(record, processor, flags, linear, code, &placeholder,
                             !pcid_record_has_spans_(record));
}

/*
 * `processor` carried out a MOV to CR3. `operand` is as the instruction had it, with bit 63.
 *
 * PCID_RECORD_CLOSED, PCID_RECORD_FULL, rules 1 and 4, PCID_RECORD_PUT_FAILED.
 */
static inline enum pcid_record_status pcid_record_mov_cr3(struct pcid_record *record,
                                                          uint32_t processor, uint64_t operand)
{
    const enum pcid_record_status status = pcid_record_ready_(record);
    uint8_t *at;

    if (status != PCID_RECORD_TAKEN)
        return status;
    if (processor >= record->processors)
        return PCID_RECORD_RULE_1;
    if ((operand & 0x7FFFFFFFFFFFFFFF) >> record->m != 0)
        return PCID_RECORD_RULE_4;
    at = pcid_record_open_(record, 0x12, processor);
    at = pcid_record_number_(at, operand, 8);
    return pcid_record_close_(record, at);
}

/*
 * `processor` carried out an INVLPG of `linear`.
 *
 * PCID_RECORD_CLOSED, PCID_RECORD_FULL, rules 1 and 3, PCID_RECORD_PUT_FAILED.
 */
static inline enum pcid_record_status pcid_record_invlpg(struct pcid_record *record,
                                                         uint32_t processor, uint64_t linear)
{
    const enum pcid_record_status status = pcid_record_ready_(record);
    uint8_t *at;

    if (status != PCID_RECORD_TAKEN)
        return status;
    if (processor >= record->processors)
        return PCID_RECORD_RULE_1;
    if (!pcid_record_is_canonical_(linear))
        return PCID_RECORD_RULE_3;
    at = pcid_record_open_(record, 0x13, processor);
    at = pcid_record_number_(at, linear, 8);
    return pcid_record_close_(record, at);
}

/*
 * `processor` carried out an INVPCID of this type (0 to 3). `pcid` (0 to 4,095) is passed as 0 for
 * the types 2 and 3, and `linear` for the types 1 to 3, whatever the instruction had there.
 *
 * PCID_RECORD_CLOSED, PCID_RECORD_FULL, rules 1, 3 (type 0) and 5, PCID_RECORD_PUT_FAILED.
 */
static inline enum pcid_record_status pcid_record_invpcid(struct pcid_record *record,
                                                          uint32_t processor, uint64_t type,
                                                          uint64_t pcid, uint64_t linear)
{
    const enum pcid_record_status status = pcid_record_ready_(record);
    uint8_t *at;

    if (status != PCID_RECORD_TAKEN)
        return status;
    if (processor >= record->processors)
        return PCID_RECORD_RULE_1;
    if (type == 0 && !pcid_record_is_canonical_(linear))
        return PCID_RECORD_RULE_3;
    if (type > 3 || pcid > 4095 || (type >= 2 && pcid != 0) || (type >= 1 && linear != 0))
        return PCID_RECORD_RULE_5;
    at = pcid_record_open_(record, 0x14, processor);
    at = pcid_record_number_(at, type, 1);
    at = pcid_record_number_(at, pcid, 2);
    at = pcid_record_number_(at, linear, 8);
    return pcid_record_close_(record, at);
}

/*
 * `processor` carried out a MOV to CR4; `pge` is the new CR4.PGE, 0 or 1, changed or not.
 *
 * PCID_RECORD_CLOSED, PCID_RECORD_FULL, PCID_RECORD_FIELD (pge), rule 1, PCID_RECORD_PUT_FAILED.
 */
static inline enum pcid_record_status pcid_record_mov_cr4(struct pcid_record *record,
                                                          uint32_t processor, uint32_t pge)
{
    const enum pcid_record_status status = pcid_record_ready_(record);
    uint8_t *at;

    if (status != PCID_RECORD_TAKEN)
        return status;
    if (pge > 1)
        return PCID_RECORD_FIELD;
    if (processor >= record->processors)
        return PCID_RECORD_RULE_1;
    at = pcid_record_open_(record, 0x15, processor);
    at = pcid_record_number_(at, pge, 1);
    return pcid_record_close_(record, at);
}

/*
 * Versions 2 and 4: `processor`, or the system under test for it, set A in the table word at
 * physical address `entry`, and D too where `flags` has PCID_RECORD_DIRTY. `flags` and `linear` are
 * otherwise those of the access that it serves. `moments` are `count` numbers, 1 to 4, one for
 * each level that was read, level 4 first; the last is that of the entry itself, which is
 * pcid_record_moment before this call. In version 4 `count` is 0.
 *
 * PCID_RECORD_CLOSED, PCID_RECORD_FULL, PCID_RECORD_NO_ASSIST, PCID_RECORD_FIELD (count), rules 1,
 * 2, 3 and 6, PCID_RECORD_PUT_FAILED.
 */
static inline enum pcid_record_status
pcid_record_assist(struct pcid_record *record, uint32_t processor, uint32_t flags, uint64_t linear,
                   uint64_t entry, const uint32_t *moments, uint32_t count)
{
    const enum pcid_record_status status = pcid_record_ready_(record);
    uint8_t *at;

    if (status != PCID_RECORD_TAKEN)
        return status;
    if (!pcid_record_has_assists_(record))
        return PCID_RECORD_NO_ASSIST;
    if (!pcid_record_is_count_(record, count))
        return PCID_RECORD_FIELD;
    if (processor >= record->processors)
        return PCID_RECORD_RULE_1;
    if (!pcid_record_is_word_(record, entry))
        return PCID_RECORD_RULE_2;
    if (!pcid_record_is_canonical_(linear))
        return PCID_RECORD_RULE_3;
    if (flags > 0x1F || (flags & 3) == 3 ||
        ((flags & PCID_RECORD_DIRTY) != 0 && (flags & 3) != PCID_RECORD_WRITE))
        return PCID_RECORD_RULE_6;
    at = pcid_record_open_(record, 0x16, processor);
    at = pcid_record_number_(at, flags, 1);
    at = pcid_record_number_(at, linear, 8);
    at = pcid_record_number_(at, entry, 8);
    at = pcid_record_moments_(at, moments, count);
    return pcid_record_close_(record, at);
}

/*
 * pcid_record_assist without moments.
 *
 * PCID_RECORD_CLOSED, PCID_RECORD_FULL, PCID_RECORD_NO_ASSIST, rules 1, 2, 3 and 6,
 * PCID_RECORD_PUT_FAILED.
 */
static inline enum pcid_record_status
pcid_record_assist_unnamed(struct pcid_record *record, uint32_t processor, uint32_t flags,
                           uint64_t linear, uint64_t entry)
{
    const uint32_t placeholder = 0;

    return pcid_record_assist(record, processor, flags, linear, entry, &placeholder,
                              !pcid_record_has_spans_(record));
}

/*
 * Ends the record: puts the last segment, if there is one, and the end mark. It may be called on a
 * crash path: it takes no lock and no memory, and calls nothing but `put`.
 *
 * PCID_RECORD_CLOSED, PCID_RECORD_PUT_FAILED. Afterwards every call answers PCID_RECORD_CLOSED.
 */
static inline enum pcid_record_status pcid_record_end(struct pcid_record *record)
{
    const enum pcid_record_status status = pcid_record_ready_(record);
    uint8_t *at;

    if (status != PCID_RECORD_TAKEN && status != PCID_RECORD_FULL)
        return status;
    if (record->count > 0 && pcid_record_seal_(record) != PCID_RECORD_TAKEN)
        return PCID_RECORD_PUT_FAILED;
    at = pcid_record_number_(record->buffer, 0x02, 1);
    at = pcid_record_number_(at, record->events, 4);
    if (pcid_record_flush_(record, at) != PCID_RECORD_TAKEN)
        return PCID_RECORD_PUT_FAILED;
    record->open = 0;
    return PCID_RECORD_TAKEN;
}

#ifdef __cplusplus
}
#endif

#endif
