/* SPDX-License-Identifier: MIT OR Apache-2.0 */
/*
 * hard EVENTS: writes a record to standard output that names no moments. Some run of the machine has
 * its events, but half of the accesses need moments that no guess finds: each table on their way is
 * read and then replaced before the next is filled, and a processor goes on in those that it has
 * cached. Two processors load four PCIDs in turns, and keep what each has. Nothing is ever dropped.
 */
#include "../record.h"

enum { PROCESSORS = 2, PCIDS = 4, SEGMENT = 1000, PLAIN_PAGES = 64 };

#define ROOT UINT64_C(0x1000)
#define PRESENT UINT64_C(0x7)
#define KEEP (UINT64_C(1) << 63)
/* The tables that always stand, for linear addresses below 2 MB. */
#define PLAIN UINT64_C(0x2000)
/* What level 4 has for the other addresses: the first, or the second, which is empty. */
#define FIRST UINT64_C(0x5000)
#define SECOND UINT64_C(0x6000)
/* Tables of which each is used once. */
#define FRESH UINT64_C(0x100000)

static uint64_t fresh_tables;

static void write_entry(uint64_t table, uint64_t place, uint64_t target)
{
    taken(pcid_record_write(&record, 0, table + 8 * place, target | PRESENT));
}

static void read_page(uint32_t p, uint64_t linear, uint64_t frame)
{
    taken(pcid_record_answer_unnamed(&record, p, PCID_RECORD_READ | PCID_RECORD_USER,
                                     linear + 0x123, frame + 0x123));
}

static uint64_t fresh_table(void)
{
    return FRESH + 4096 * fresh_tables++;
}

static uint64_t frame_of(uint64_t page)
{
    return (UINT64_C(1) << 32) + 4096 * page;
}

/* An entry leads to one table, which is read, and then to another. */
static void replaced(uint64_t table, uint64_t place, uint64_t target, uint64_t other)
{
    write_entry(table, place, target);
    write_entry(table, place, other);
}

/* A page that is read by entries of three levels which were replaced one after another. */
static void hard(uint32_t p, uint64_t number)
{
    const uint64_t three = number % 512, two = number / 512 % 512;
    const uint64_t middle = fresh_table(), last = fresh_table();

    replaced(ROOT, 1, FIRST, SECOND);
    replaced(FIRST, three, middle, fresh_table());
    replaced(middle, two, last, fresh_table());
    write_entry(last, 7, frame_of(number));
    read_page(p, UINT64_C(1) << 39 | three << 30 | two << 21 | 7 << 12, frame_of(number));
}

static void write_plain_tables(void)
{
    uint64_t page;

    write_entry(ROOT, 0, PLAIN);
    write_entry(PLAIN, 0, PLAIN + 0x1000);
    write_entry(PLAIN + 0x1000, 0, PLAIN + 0x2000);
    for (page = 0; page < PLAIN_PAGES; page++)
        write_entry(PLAIN + 0x2000, page, frame_of(page));
}

int main(int count, char **words)
{
    const uint32_t events = count == 2 ? (uint32_t)strtoul(words[1], NULL, 10) : 0;
    static uint8_t buffer[PCID_RECORD_BYTES(1, SEGMENT)];
    const struct pcid_record_start start[PROCESSORS] = {{ROOT | 1, 1}, {ROOT | 1, 1}};
    const struct pcid_record_header header = {
        1, 40, PCID_RECORD_WP | PCID_RECORD_NXE, PROCESSORS, SEGMENT, start};
    uint64_t number;

    if (events < 1000) {
        fprintf(stderr, "usage: hard EVENTS, at least 1000\n");
        return 64;
    }
    taken(pcid_record_begin(&record, &header, buffer, sizeof buffer, put, stdout));
    write_plain_tables();
    for (number = 0; pcid_record_moment(&record) + 10 <= events; number++) {
        const uint32_t p = number % PROCESSORS;

        hard(p, number);
        read_page(p, 4096 * (number % PLAIN_PAGES), frame_of(number % PLAIN_PAGES));
        taken(pcid_record_mov_cr3(&record, p, ROOT | (1 + number % PCIDS) | KEEP));
    }
    return finish();
}
