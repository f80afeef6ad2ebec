/* SPDX-License-Identifier: MIT OR Apache-2.0 */
/*
 * A log for each processor that acts at once, in memory of its own, so that no lock is taken: the
 * bytes that docs/FORMAT.md has as "Logs of single processors". Each event has two stamps of one
 * counter, which is counted by locked adds: what the event does lies between them. What stands
 * whole is told by the log's length, for a loader that finds the run hung.
 */
#include "probe.h"

#define LOGS_ADDRESS 0x1000000u
#define END_MARK 0xFFFFFFFFFFFFFFFFu
enum { LOG_SIZE = 0x200000, LONGEST_EVENT = 64 };

struct log {
    volatile uint64_t length;
    uint64_t used, events, unused[5];
    uint8_t bytes[LOG_SIZE - 64];
};

static struct log *log_of(uint32_t number)
{
    return (struct log *)word_at(LOGS_ADDRESS + LOG_SIZE * (uint64_t)number);
}

static void put_number(struct log *log, uint64_t value, unsigned bytes)
{
    for (; bytes > 0; bytes--, value >>= 8)
        log->bytes[log->used++] = (uint8_t)value;
}

void begin_log(uint32_t number)
{
    const struct processor *const processor = &processors[number].processor;
    struct log *const log = log_of(number);

    log->used = log->events = 0;
    put_number(log, 0x474F4C5550434750, 8); /* PGCPULOG */
    put_number(log, settings.version, 2);
    put_number(log, machine.m, 1);
    put_number(log, (uint64_t)(rules.wp | rules.nxe << 1 | rules.smep << 2 | rules.smap << 3), 1);
    put_number(log, count_of_processors, 2);
    put_number(log, number, 2);
    put_number(log, processor->cr3, 8);
    put_number(log, processor->pge, 1);
    log->length = log->used;
}

uint64_t count_of_logged(uint32_t number)
{
    return log_of(number)->events;
}

int has_room(uint32_t number)
{
    return log_of(number)->used + 4 * LONGEST_EVENT < sizeof log_of(number)->bytes;
}

void log_field(uint64_t value, unsigned bytes)
{
    put_number(log_of(own_number()), value, bytes);
}

/* Version 2 has two bytes for the number of a processor. */
void log_event(uint8_t tag, uint64_t begin, uint64_t end)
{
    log_field(begin, 8);
    log_field(end, 8);
    log_field(tag, 1);
    log_field(own_number(), (unsigned)settings.version);
}

void log_end(void)
{
    struct log *const log = log_of(own_number());

    log->events++;
    log->length = log->used;
}

/* Each with its end mark, or as far as it came. */
void hand_out_logs(int are_whole)
{
    struct log *log;
    uint32_t number;
    uint64_t at, some;

    for (number = 0; number < count_of_processors; number++) {
        log = log_of(number);
        if (are_whole) {
            put_number(log, END_MARK, 8);
            put_number(log, log->events, 8);
            log->length = log->used;
        }
        for (at = 0; at < log->length; at += some) {
            some = log->length - at < 65536 ? log->length - at : 65536;
            put(NULL, log->bytes + at, some);
        }
    }
}
