/* SPDX-License-Identifier: MIT OR Apache-2.0 */
/*
 * A guest's memory of 32 frames, whose tables emit/pcid_tables.h records. Makes the calls that
 * standard input names, one a line, and writes the record to standard output. Standard error has a
 * line for each call: its status, the number of events after it, and the unseen entries.
 *
 *     begin VERSION PAGES         two processors; PAGES is how many copies of tables there may be
 *     poke ADDRESS VALUE          changes a word of memory without a call, as a device would
 *     store CPU ADDRESS BYTES VALUE   the call, then the store
 *     stored CPU ADDRESS BYTES VALUE  the store, then the call
 *     read CPU LEVEL ADDRESS      a walk reads this entry
 *     assist CPU FLAGS ADDRESS    a walk sets A, or A and D
 *     root CPU CR3
 *     settle CPU
 *     end
 */
#include <inttypes.h>
#include <stdio.h>
#include <stdlib.h>
#include <string.h>

#include "../../emit/pcid_tables.h"

enum { FRAMES = 32, PROCESSORS = 2, SEGMENT = 64 };

static uint64_t memory[FRAMES * 512];
static uint64_t copies[FRAMES][512];
static uint32_t copies_taken, copies_most;
static struct pcid_tables_frame frames[FRAMES];
static uint64_t roots[PROCESSORS];
static uint8_t buffer[PCID_RECORD_BYTES(2, SEGMENT)];
static struct pcid_record record;
static struct pcid_tables tables;

static int put(void *file, const uint8_t *bytes, size_t count)
{
    return fwrite(bytes, 1, count, (FILE *)file) != count;
}

static uint64_t word(void *context, uint64_t address)
{
    (void)context;
    if (address / 8 >= FRAMES * 512)
        exit(71); /* the header promises never to ask for it */
    return memory[address / 8];
}

static uint64_t *page(void *context)
{
    (void)context;
    return copies_taken == copies_most ? NULL : copies[copies_taken++];
}

static uint64_t number(void)
{
    uint64_t value;

    if (scanf("%" SCNi64, (int64_t *)&value) != 1)
        exit(70);
    return value;
}

static unsigned begin(void)
{
    static const struct pcid_tables_source source = {NULL, word, page};
    static const struct pcid_record_start start[PROCESSORS];
    struct pcid_record_header header = {0, 40, 0, PROCESSORS, SEGMENT, start};
    unsigned status;

    header.version = (uint32_t)number();
    copies_most = (uint32_t)number();
    status = pcid_record_begin(&record, &header, buffer, sizeof buffer, put, stdout);
    if (status == PCID_RECORD_TAKEN)
        pcid_tables_begin(&tables, &record, &source, frames, FRAMES, roots);
    return status;
}

static unsigned store(int is_before)
{
    const uint32_t processor = (uint32_t)number();
    const uint64_t address = number(), bytes = number(), value = number();
    unsigned status = PCID_RECORD_TAKEN;
    uint64_t k;

    if (is_before)
        status = pcid_tables_store(&tables, processor, address, (uint32_t)bytes);
    for (k = 0; k < bytes && address + k < sizeof memory; k++)
        ((uint8_t *)memory)[address + k] = (uint8_t)(value >> 8 * (k % 8));
    if (!is_before)
        status = pcid_tables_store(&tables, processor, address, (uint32_t)bytes);
    return status;
}

static unsigned read_entry(void)
{
    const uint32_t processor = (uint32_t)number(), level = (uint32_t)number();
    const uint64_t address = number();
    const uint64_t value = address < sizeof memory ? memory[address / 8] : 0x77;

    return pcid_tables_read(&tables, processor, level, address, value);
}

static unsigned assist(void)
{
    const uint32_t processor = (uint32_t)number(), flags = (uint32_t)number();
    const uint64_t address = number();
    const unsigned status = pcid_tables_assist(&tables, processor, flags, 0, address);

    memory[address / 8] |= flags & PCID_RECORD_DIRTY ? 0x60 : 0x20;
    return status;
}

static unsigned call(const char *name)
{
    uint32_t processor;

    if (strcmp(name, "begin") == 0)
        return begin();
    if (strcmp(name, "end") == 0)
        return pcid_record_end(&record);
    if (strcmp(name, "store") == 0 || strcmp(name, "stored") == 0)
        return store(strcmp(name, "store") == 0);
    if (strcmp(name, "read") == 0)
        return read_entry();
    if (strcmp(name, "assist") == 0)
        return assist();
    if (strcmp(name, "poke") == 0) {
        const uint64_t address = number();

        memory[address / 8] = number();
        return PCID_RECORD_TAKEN;
    }
    processor = (uint32_t)number();
    if (strcmp(name, "settle") == 0)
        return pcid_tables_settle(&tables, processor);
    if (strcmp(name, "root") != 0)
        exit(70);
    pcid_tables_root(&tables, processor, number());
    return PCID_RECORD_TAKEN;
}

int main(void)
{
    char name[16];

    while (scanf("%15s", name) == 1) {
        const unsigned status = call(name);

        fprintf(stderr, "%u %" PRIu32 " %" PRIu64 "\n", status, record.events, tables.unseen);
    }
    return fflush(stdout) != 0;
}
