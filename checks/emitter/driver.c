/* SPDX-License-Identifier: MIT OR Apache-2.0 */
/*
 * Makes the calls of emit/pcid_record.h and emit/pcid_log.h that standard input names, one a line,
 * and writes the record or the log to standard output. Standard error has a line for each call: its status, the moment after
 * it and the bytes that the buffer holds.
 */
#include <inttypes.h>
#include <stdio.h>
#include <stdlib.h>
#include <string.h>

#include "../../emit/pcid_log.h"

static struct pcid_record own, *record = &own; /* the record, or what a log has */
static struct pcid_log log_of_one;
static uint64_t room = UINT64_MAX; /* bytes that `put` takes until it fails */

static int put(void *file, const uint8_t *bytes, size_t count)
{
    const size_t taken = count <= room ? count : (size_t)room;

    room -= taken;
    return fwrite(bytes, 1, taken, (FILE *)file) != count;
}

static uint64_t number(void)
{
    uint64_t value;

    if (scanf("%" SCNu64, &value) != 1)
        exit(70);
    return value;
}

static uint32_t small(void)
{
    return (uint32_t)number();
}

static uint32_t read_moments(uint32_t *moments)
{
    const uint32_t count = small();
    uint32_t k;

    for (k = 0; k < count; k++)
        moments[k] = small();
    return count;
}

static enum pcid_record_status begin(void)
{
    static struct pcid_record_start start[2048];
    static uint8_t *buffer;
    struct pcid_record_header header;
    size_t size;
    uint32_t k;

    header.version = small();
    header.m = small();
    header.settings = small();
    header.segment = small();
    header.processors = small();
    header.start = start;
    size = (size_t)number();
    for (k = 0; k < header.processors; k++) {
        start[k].cr3 = number();
        start[k].pge = small();
    }
    free(buffer);
    record = &own;
    buffer = (uint8_t *)malloc(size > 0 ? size : 1);
    return buffer == NULL ? (enum pcid_record_status)99
                          : pcid_record_begin(record, &header, buffer, size, put, stdout);
}

static enum pcid_record_status begin_log(void)
{
    struct pcid_log_header header;

    header.version = small();
    header.m = small();
    header.settings = small();
    header.processors = small();
    header.processor = small();
    header.start.cr3 = number();
    header.start.pge = small();
    record = &log_of_one.record;
    return pcid_log_begin(&log_of_one, &header, put, stdout);
}

static enum pcid_record_status span(void)
{
    const uint64_t begin = number();

    return pcid_log_span(&log_of_one, begin, number());
}

/* An access or an assist: without moments, where the call's name has a `-` behind. */
static enum pcid_record_status call_access(const char *name, uint32_t p)
{
    const uint32_t flags = small();
    const uint64_t a = number(), b = number();
    uint32_t moments[16], count;

    if (strcmp(name, "answer-") == 0)
        return pcid_record_answer_unnamed(record, p, flags, a, b);
    if (strcmp(name, "fault-") == 0)
        return pcid_record_fault_unnamed(record, p, flags, a, (uint32_t)b);
    if (strcmp(name, "assist-") == 0)
        return pcid_record_assist_unnamed(record, p, flags, a, b);
    count = read_moments(moments);
    if (strcmp(name, "answer") == 0)
        return pcid_record_answer(record, p, flags, a, b, moments, count);
    if (strcmp(name, "fault") == 0)
        return pcid_record_fault(record, p, flags, a, (uint32_t)b, moments, count);
    if (strcmp(name, "assist") == 0)
        return pcid_record_assist(record, p, flags, a, b, moments, count);
    exit(70);
}

static enum pcid_record_status call(const char *name)
{
    uint32_t p;
    uint64_t a, b;

    if (strcmp(name, "begin") == 0)
        return begin();
    if (strcmp(name, "end") == 0)
        return pcid_record_end(record);
    if (strcmp(name, "log") == 0)
        return begin_log();
    if (strcmp(name, "span") == 0)
        return span();
    if (strcmp(name, "began") == 0)
        return pcid_record_began(record, small());
    p = small();
    if (strcmp(name, "write") == 0) {
        a = number();
        return pcid_record_write(record, p, a, number());
    }
    if (strcmp(name, "mov_cr3") == 0)
        return pcid_record_mov_cr3(record, p, number());
    if (strcmp(name, "invlpg") == 0)
        return pcid_record_invlpg(record, p, number());
    if (strcmp(name, "mov_cr4") == 0)
        return pcid_record_mov_cr4(record, p, small());
    if (strcmp(name, "invpcid") == 0) {
        a = number();
        b = number();
        return pcid_record_invpcid(record, p, a, b, number());
    }
    return call_access(name, p);
}

int main(void)
{
    char name[16];

    while (scanf("%15s", name) == 1) {
        if (strcmp(name, "room") == 0) { /* `put` takes that many bytes more */
            room = number();
        } else if (strcmp(name, "events") == 0) { /* as if it had that many events */
            record->events = small();
        } else if (strcmp(name, "held") == 0) { /* what a crash dump would save */
            fwrite(record->buffer, 1, record->used, stdout);
        } else {
            fprintf(stderr, "%d", (int)call(name));
            fprintf(stderr, " %" PRIu32 " %lu\n", pcid_record_moment(record),
                    (unsigned long)record->used);
        }
    }
    return fflush(stdout) != 0;
}
