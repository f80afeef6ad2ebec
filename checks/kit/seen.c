/* SPDX-License-Identifier: MIT OR Apache-2.0 */
/*
 * Makes the calls of emit/pcid_seen.h that standard input names, one a line, and writes for each
 * call of pcid_seen_answer what it gave, 0 or 1, on a line of its own. A line is the call's name,
 * the processor and the fields.
 */
#include <inttypes.h>
#include <stdio.h>
#include <stdlib.h>
#include <string.h>

#include "../../emit/pcid_seen.h"

enum { PROCESSORS = 4, SLOTS = 4096 };

static struct pcid_seen seen[PROCESSORS];
static struct pcid_seen_slot slots[PROCESSORS][SLOTS];

static uint64_t number(void)
{
    uint64_t value;

    if (scanf("%" SCNu64, &value) != 1)
        exit(70);
    return value;
}

static void begin(uint32_t processor)
{
    const uint32_t count = (uint32_t)number(), region_bits = (uint32_t)number();

    if (count > SLOTS)
        exit(70);
    pcid_seen_begin(&seen[processor], slots[processor], count, region_bits, number());
}

static void answer(struct pcid_seen *one)
{
    const uint32_t flags = (uint32_t)number();
    const uint64_t linear = number();

    printf("%d\n", pcid_seen_answer(one, flags, linear, number()));
}

static void invpcid(struct pcid_seen *one)
{
    const uint64_t type = number(), pcid = number();

    pcid_seen_invpcid(one, type, pcid, number());
}

static void call(const char *name, uint32_t processor)
{
    struct pcid_seen *one = &seen[processor];

    if (strcmp(name, "begin") == 0)
        begin(processor);
    else if (strcmp(name, "answer") == 0)
        answer(one);
    else if (strcmp(name, "fault") == 0)
        pcid_seen_fault(one, number());
    else if (strcmp(name, "mov_cr3") == 0)
        pcid_seen_mov_cr3(one, number());
    else if (strcmp(name, "invlpg") == 0)
        pcid_seen_invlpg(one, number());
    else if (strcmp(name, "invpcid") == 0)
        invpcid(one);
    else if (strcmp(name, "mov_cr4") == 0)
        pcid_seen_mov_cr4(one);
    else
        exit(70);
}

int main(void)
{
    char name[16];

    while (scanf("%15s", name) == 1) {
        const uint64_t processor = number();

        if (processor >= PROCESSORS)
            return 70;
        call(name, (uint32_t)processor);
    }
    return fflush(stdout) != 0;
}
