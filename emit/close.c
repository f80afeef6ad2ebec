/* SPDX-License-Identifier: MIT OR Apache-2.0 */
/*
 * Closes the record of a run that crashed: reads a record whose tail is cut from standard input,
 * and writes what stands whole before the cut, with the right end mark, to standard output.
 *
 *     cc -std=c99 -o close emit/close.c && ./close < cut.record > closed.record
 *
 * It keeps the header and the whole segments. With the word `events` it also keeps the whole
 * events of the segment that was cut, as a last segment of that many events. What it does not
 * keep is not judged. It looks at no more than it needs to find where things end: whether the
 * record is well formed otherwise is for pcid-audit to say.
 *
 * In versions 3 and 4 an event that is not kept may have begun before one that is, and what it did
 * may have been seen: a no of what is kept is sure only where no write was under way at the cut.
 *
 * One line on standard error says what was kept. Exit status: 0 closed, 1 no header of a record
 * stands before the cut and nothing was written, 2 a read or a write failed, 64 usage.
 */
#include <stdio.h>
#include <string.h>

#include "pcid_record.h"

static uint8_t held[PCID_RECORD_BYTES(2, 65536)]; /* a header or a segment, as far as it was read */
static size_t used;
static unsigned long long bytes_read, bytes_kept;

/* Reads `count` bytes more. Answers 0 where the input ends before. */
static int more(size_t count)
{
    const size_t got = fread(held + used, 1, count, stdin);

    used += got;
    bytes_read += got;
    return got == count;
}

static uint32_t number(const uint8_t *at, unsigned bytes)
{
    return bytes == 0 ? 0 : at[0] | number(at + 1, bytes - 1) << 8;
}

/* Writes what is held, and lets it go. */
static int keep(void)
{
    const int done = fwrite(held, 1, used, stdout) == used;

    bytes_kept += used;
    used = 0;
    return done;
}

/* The bytes of a processor's number. */
static unsigned width(uint32_t version)
{
    return version % 2 == 1 ? 1 : 2;
}

/* Reads a header. Answers 0 where it is cut, or none. */
static int header(uint32_t *version, uint32_t *segment)
{
    uint32_t processors;

    if (!more(12) || memcmp(held, "PGRECORD", 8) != 0)
        return 0;
    *version = number(held + 8, 2);
    if (*version < 1 || *version > 4 || !more(width(*version) + 4))
        return 0;
    processors = number(held + 12, width(*version));
    *segment = number(held + 12 + width(*version), 4);
    return processors >= 1 && processors <= (*version % 2 == 1 ? 64u : 1024u) && *segment >= 1 &&
           *segment <= 65536 && more((size_t)processors * 9);
}

/* Reads an event. Answers 0 where it is cut, or none. */
static int event(uint32_t version)
{
    const uint8_t *const tag = held + used;

    if (!more(1 + width(version) + (version >= 3 ? 4 : 0)))
        return 0;
    if (*tag == 0x10)
        return more(16);
    if (*tag == 0x12 || *tag == 0x13)
        return more(8);
    if (*tag == 0x14)
        return more(11);
    if (*tag == 0x15)
        return more(1);
    if (*tag == 0x11) {
        if (!more(10) || held[used - 1] > 1 || !more(held[used - 1] == 1 ? 2 : 8))
            return 0;
    } else if (*tag != 0x16 || version % 2 == 1 || !more(17)) {
        return 0;
    }
    if (version >= 3)
        return 1;
    return more(1) && held[used - 1] >= 1 && held[used - 1] <= 4 && more(4u * held[used - 1]);
}

int main(int words, char **word)
{
    const int keeps_events = words == 2 && strcmp(word[1], "events") == 0;
    uint32_t version, size, segments = 0, events = 0, count, whole;
    size_t head;
    int done, ended = 0, last = 0;

    if (words > 2 || (words == 2 && !keeps_events)) {
        fputs("usage: close [events] < cut.record > closed.record\n", stderr);
        return 64;
    }
    if (!header(&version, &size)) {
        fputs("close: no header of a record stands before the cut\n", stderr);
        return ferror(stdin) ? 2 : 1;
    }
    done = keep();
    while (done && !last && more(1) && held[0] == 0x01) {
        if (!more(8) || number(held + 1, 4) != segments)
            break;
        count = number(held + 5, 4);
        if (count < 1 || count > size || count > PCID_RECORD_MOST_EVENTS - events)
            break;
        for (whole = 0, head = used; whole < count && event(version); whole++)
            head = used;
        if (whole < count && !(keeps_events && whole > 0))
            break;
        last = whole < size;
        used = head; /* an event that is cut goes */
        held[5] = (uint8_t)whole;
        held[6] = (uint8_t)(whole >> 8);
        held[7] = (uint8_t)(whole >> 16);
        done = keep();
        segments++;
        events += whole;
    }
    if (last)
        more(1);
    if (used == 1 && held[0] == 0x02 && more(4))
        ended = number(held + 1, 4) == events;
    for (used = 0; more(sizeof held); used = 0)
        ;
    held[0] = 0x02;
    held[1] = (uint8_t)events;
    held[2] = (uint8_t)(events >> 8);
    held[3] = (uint8_t)(events >> 16);
    held[4] = (uint8_t)(events >> 24);
    if (!done || fwrite(held, 1, 5, stdout) != 5 || fflush(stdout) != 0 || ferror(stdin)) {
        fputs("close: a read or a write failed\n", stderr);
        return 2;
    }
    if (ended)
        bytes_kept += 5;
    fprintf(stderr, "close: kept %lu events in %lu segments; %llu bytes were not kept\n",
            (unsigned long)events, (unsigned long)segments, bytes_read - bytes_kept);
    return 0;
}
