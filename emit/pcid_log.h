/* SPDX-License-Identifier: MIT OR Apache-2.0 */
/*
 * pcid_log.h: writes the log of one processor, for `pcid-audit merge`, which makes a record of the
 * logs of all processors. docs/FORMAT.md ("Logs of single processors") says what the bytes are.
 *
 * Each processor has a log of its own, so that no lock is needed: calls on one log never overlap,
 * and calls on two logs may. Each event has two stamps of a counter that all processors share,
 * which never gives a number twice: one from before the instruction and one from behind it.
 *
 *     static struct pcid_log log;
 *
 *     pcid_log_begin(&log, &header, put, context);
 *     begin = atomic_fetch_add(&counter, 1) + 1;
 *     ..                                                      the instruction
 *     end = atomic_fetch_add(&counter, 1) + 1;
 *     pcid_log_span(&log, begin, end);
 *     pcid_record_invlpg(&log.record, 0, 0x5000);
 *     pcid_record_end(&log.record);
 *
 * Events are written by the calls of pcid_record.h on `log.record`, with all that they answer. The
 * processor that they are passed has to be one of the run, and the log writes its own. Accesses and
 * assists are those that end in `_unnamed`. `put` takes each event in one piece, as it comes.
 */
#ifndef PCID_LOG_H
#define PCID_LOG_H

#include "pcid_record.h"

#ifdef __cplusplus
extern "C" {
#endif

/* What stands at the head of a log. Read by pcid_log_begin, and not kept. */
struct pcid_log_header {
    uint32_t version;    /* 1, or 2 for events with assists or more than 64 processors */
    uint32_t m;          /* MAXPHYADDR in bits: 36 to 52 */
    uint32_t settings;   /* PCID_RECORD_WP and others: 0 to 0xF */
    uint32_t processors; /* of the run: 1 to 64; in version 2 1 to 1,024 */
    uint32_t processor;  /* of this log: below that */
    struct pcid_record_start start; /* of this processor */
};

/* A log that is being written. The caller owns it, and changes nothing in it. */
struct pcid_log {
    struct pcid_record record; /* takes the events: a segment each, which the log spells anew */
    uint8_t buffer[PCID_RECORD_BYTES(4, 1)];
    pcid_record_put put;
    void *context;
    uint32_t processor;
    uint64_t begin, end; /* stamps of the next event, 0 where they were not told */
    uint64_t last;       /* the greatest stamp of the events before */
};

enum { PCID_LOG_HEAD_ = 25, PCID_LOG_EVENT_ = 16 + 25 };

/* Puts an event of the record as one of the log, and the end mark of the record as the log's. */
static inline int pcid_log_put_(void *context, const uint8_t *bytes, size_t count)
{
    struct pcid_log *const log = (struct pcid_log *)context;
    const unsigned width = pcid_record_width_(log->record.version);
    const size_t fields = 9 + 1 + width + 4; /* behind the segment's head, tag, processor, back */
    uint8_t event[PCID_LOG_EVENT_], *at = event;
    size_t k;

    if (bytes[0] == 0x02) {
        at = pcid_record_number_(at, 0xFFFFFFFFFFFFFFFF, 8);
        at = pcid_record_number_(at, log->record.events, 8);
        return log->put(log->context, event, (size_t)(at - event));
    }
    if (log->end == 0)
        return 1;
    at = pcid_record_number_(at, log->begin, 8);
    at = pcid_record_number_(at, log->end, 8);
    at = pcid_record_number_(at, bytes[9], 1);
    at = pcid_record_number_(at, log->processor, width);
    for (k = fields; k < count; k++)
        at = pcid_record_number_(at, bytes[k], 1);
    log->last = log->end;
    log->begin = log->end = 0;
    return log->put(log->context, event, (size_t)(at - event));
}

/*
 * Begins a log, and puts its header in one piece.
 *
 * PCID_RECORD_BAD_VERSION, PCID_RECORD_BAD_HEADER, PCID_RECORD_PUT_FAILED. Where it answers one of
 * them the log takes no event.
 */
static inline enum pcid_record_status pcid_log_begin(struct pcid_log *log,
                                                     const struct pcid_log_header *header,
                                                     pcid_record_put put, void *context)
{
    struct pcid_record *const record = &log->record;
    uint8_t head[PCID_LOG_HEAD_], *at = head;

    record->open = record->failed = 0;
    record->used = 0;
    record->segments = record->count = record->events = record->back = 0;
    if (header->version != 1 && header->version != 2)
        return PCID_RECORD_BAD_VERSION;
    if (header->m < 36 || header->m > 52 || header->settings > 0xF)
        return PCID_RECORD_BAD_HEADER;
    if (header->processors < 1 || header->processors > (header->version == 1 ? 64u : 1024u))
        return PCID_RECORD_BAD_HEADER;
    if (header->processor >= header->processors || header->start.cr3 >> header->m != 0 ||
        header->start.pge > 1)
        return PCID_RECORD_BAD_HEADER;
    log->put = put;
    log->context = context;
    log->processor = header->processor;
    log->begin = log->end = log->last = 0;
    record->buffer = log->buffer;
    record->put = pcid_log_put_;
    record->context = log;
    record->version = header->version + 2;
    record->m = header->m;
    record->processors = header->processors;
    record->segment = 1;

    at = pcid_record_number_(at, 0x474F4C5550434750, 8); /* PGCPULOG */
    at = pcid_record_number_(at, header->version, 2);
    at = pcid_record_number_(at, header->m, 1);
    at = pcid_record_number_(at, header->settings, 1);
    at = pcid_record_number_(at, header->processors, 2);
    at = pcid_record_number_(at, header->processor, 2);
    at = pcid_record_number_(at, header->start.cr3, 8);
    at = pcid_record_number_(at, header->start.pge, 1);
    if (put(context, head, (size_t)(at - head)) != 0) {
        record->failed = 1;
        return PCID_RECORD_PUT_FAILED;
    }
    record->open = 1;
    return PCID_RECORD_TAKEN;
}

/*
 * The stamps of the next event that is taken: `begin` is above each stamp of the log's events
 * before, `end` above `begin`, and below 2^64 - 1. An event that is not taken leaves them for the
 * next. An event without them is not put, and ends the log (PCID_RECORD_PUT_FAILED).
 *
 * PCID_RECORD_CLOSED, PCID_RECORD_FULL, PCID_RECORD_FIELD (stamps that are out of order),
 * PCID_RECORD_PUT_FAILED.
 */
static inline enum pcid_record_status pcid_log_span(struct pcid_log *log, uint64_t begin,
                                                    uint64_t end)
{
    const enum pcid_record_status status = pcid_record_ready_(&log->record);

    if (status != PCID_RECORD_TAKEN)
        return status;
    if (begin <= log->last || end <= begin || end == 0xFFFFFFFFFFFFFFFF)
        return PCID_RECORD_FIELD;
    log->begin = begin;
    log->end = end;
    return PCID_RECORD_TAKEN;
}

#ifdef __cplusplus
}
#endif

#endif
