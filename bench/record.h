/* SPDX-License-Identifier: MIT OR Apache-2.0 */
/*
 * What the programs of benches that write a record share: the record, which goes to standard output, and
 * random numbers that are the same in each run.
 */
#ifndef BENCH_RECORD_H
#define BENCH_RECORD_H

#include "../emit/pcid_record.h"

#include <stdio.h>
#include <stdlib.h>

static struct pcid_record record;
static uint64_t random_state; /* not 0 */

/* The record's bytes go to this stream. */
static int put(void *stream, const uint8_t *bytes, size_t count)
{
    return fwrite(bytes, 1, count, (FILE *)stream) != count;
}

/* A bench measures whole records alone, so an event that is refused ends the program. */
static void taken(enum pcid_record_status status)
{
    if (status != PCID_RECORD_TAKEN) {
        fprintf(stderr, "an event was refused: status %d\n", (int)status);
        exit(1);
    }
}

/* Ends the record, and gives the exit status of main. */
static int finish(void)
{
    taken(pcid_record_end(&record));
    return fflush(stdout) ? 1 : 0;
}

static inline uint64_t random_bits(void)
{
    random_state ^= random_state << 13;
    random_state ^= random_state >> 7;
    random_state ^= random_state << 17;
    return random_state;
}

static inline uint32_t random_below(uint32_t limit)
{
    return (uint32_t)((random_bits() >> 32) * limit >> 32);
}

#endif
