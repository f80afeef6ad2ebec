/* SPDX-License-Identifier: MIT OR Apache-2.0 */
/*
 * records KIND EVENTS: writes an accepted record of PROCESSORS processors to standard output, made by
 * a small machine that caches translations as a hypervisor would.
 *
 *   mixed    four events of five are reads, mostly of a few hundred pages, by entries that were
 *            read long before; the others are writes of their entries, INVLPG and MOV to CR3
 *   word     every second event writes one and the same word, and half of the others read its page,
 *            which is invalidated now and then, so that moments spread over all that it held
 *   invlpg   every second event is an INVLPG of a random page
 *   cr3      every second event is a MOV to CR3, which drops what its PCID has
 *   words    every second event writes a word of its own
 *   scan     all events are reads, of 512 pages in their order again and again, each by entries that
 *            were read once
 *   fresh    all events are reads, each by entries that are read at it
 */
#include "../record.h"

#include <string.h>

#ifndef SEGMENT
#define SEGMENT 4096
#endif

#ifndef PROCESSORS
#define PROCESSORS 4
#endif

/* 1 makes the first answer wrong. */
#ifndef SLIP
#define SLIP 0
#endif

enum { PAGES = 4096, HOT = 256, PCIDS = 64 };

#define ROOT UINT64_C(0x1000)
#define UPPER UINT64_C(0x2000)
#define MIDDLE UINT64_C(0x3000)
#define LEAVES UINT64_C(0x10000) /* a table of 512 entries for each 2 MB */
#define OWN_WORDS UINT64_C(0x4000000000)
#define PRESENT UINT64_C(0x7)

struct page {
    uint32_t generation; /* that of its space when it was read; 0 where it was not */
    uint64_t entry;
    uint32_t moments[4];
};

/* What one PCID of a processor caches: translations, and the moments of the upper levels of one
 * region. What is of an earlier generation was dropped. */
struct space {
    uint32_t generation; /* from 1 on */
    uint32_t region;     /* of the upper levels, from 1 on; 0 where none are cached */
    uint32_t upper[3];
    struct page *pages;
};

struct processor {
    uint32_t pcid;
    struct space spaces[PCIDS];
};

static struct processor processors[PROCESSORS];
static uint64_t entries[PAGES];
static uint64_t slip = SLIP;

static uint64_t address_of(uint32_t page)
{
    return (uint64_t)page << 12;
}

static uint64_t slot_of(uint32_t page)
{
    return LEAVES + (uint64_t)page * 8;
}

static void write_entry(uint32_t p, uint32_t page)
{
    entries[page] = (uint64_t)(0x100 + random_below(1 << 20)) << 12 | PRESENT;
    taken(pcid_record_write(&record, p, slot_of(page), entries[page]));
}

/* The tables above the leaves are written once. */
static void write_tables(void)
{
    uint32_t k;

    taken(pcid_record_write(&record, 0, ROOT, UPPER | PRESENT));
    taken(pcid_record_write(&record, 0, UPPER, MIDDLE | PRESENT));
    for (k = 0; k < PAGES / 512; k++)
        taken(pcid_record_write(&record, 0, MIDDLE + 8 * k, (LEAVES + 4096 * (uint64_t)k) | PRESENT));
    for (k = 0; k < PAGES; k++)
        write_entry(k % PROCESSORS, k);
}

static struct space *space_of(uint32_t p)
{
    return &processors[p].spaces[processors[p].pcid];
}

/* A read by the cached translation, or by a walk from the cached upper levels, or from the root. */
static void read_page(uint32_t p, uint32_t number)
{
    struct space *space = space_of(p);
    struct page *page = &space->pages[number];
    const uint32_t now = pcid_record_moment(&record);

    if (page->generation != space->generation) {
        const uint32_t region = number / 512 + 1;

        if (space->region != region) {
            space->region = region;
            space->upper[0] = space->upper[1] = space->upper[2] = now;
        }
        memcpy(page->moments, space->upper, sizeof space->upper);
        page->moments[3] = now;
        page->entry = entries[number];
        page->generation = space->generation;
    }
    taken(pcid_record_answer(&record, p, PCID_RECORD_READ | PCID_RECORD_USER,
                             address_of(number) + 0x123,
                             (page->entry & ~UINT64_C(0xfff)) + 0x123 + slip, page->moments, 4));
    slip = 0;
}

/* Drops the page's translation, and all structure entries of the PCID. */
static void invlpg(uint32_t p, uint32_t number)
{
    struct space *space = space_of(p);

    space->pages[number].generation = 0;
    space->region = 0;
    taken(pcid_record_invlpg(&record, p, address_of(number)));
}

static void load(uint32_t p, uint32_t pcid, int keep)
{
    processors[p].pcid = pcid;
    if (!keep) {
        space_of(p)->generation++;
        space_of(p)->region = 0;
    }
    taken(pcid_record_mov_cr3(&record, p, ROOT | pcid | (keep ? UINT64_C(1) << 63 : 0)));
}

static uint32_t some_page(uint32_t p)
{
    return random_below(10) ? (p * HOT + random_below(HOT)) % PAGES : random_below(PAGES);
}

static void mixed(uint32_t p)
{
    const uint32_t what = random_below(100);

    if (what < 80)
        read_page(p, some_page(p));
    else if (what < 92)
        write_entry(p, some_page(p));
    else if (what < 98)
        invlpg(p, some_page(p));
    else
        load(p, random_below(8), 1);
}

static void word(uint32_t p)
{
    const uint32_t what = random_below(64);

    if (pcid_record_moment(&record) % 2)
        write_entry(p, 7);
    else if (what == 0)
        invlpg(p, 7);
    else
        read_page(p, what < 32 ? 7 : some_page(p));
}

/* A read of one page after another. */
static void scan(uint32_t p)
{
    read_page(p, pcid_record_moment(&record) / PROCESSORS % 512);
}

/* A read by a walk from the root. */
static void fresh(uint32_t p)
{
    const uint32_t page = some_page(p);

    space_of(p)->pages[page].generation = 0;
    space_of(p)->region = 0;
    read_page(p, page);
}

/* A write of a word that no other event writes or reads. */
static void write_own_word(uint32_t p)
{
    const uint32_t moment = pcid_record_moment(&record);

    taken(pcid_record_write(&record, p, OWN_WORDS + 8 * (uint64_t)moment, moment));
}

static int is_kind(const char *kind)
{
    return !strcmp(kind, "mixed") || !strcmp(kind, "word") || !strcmp(kind, "invlpg") ||
           !strcmp(kind, "cr3") || !strcmp(kind, "words") || !strcmp(kind, "scan") ||
           !strcmp(kind, "fresh");
}

int main(int count, char **words)
{
    const char *kind = count == 3 ? words[1] : "";
    const uint32_t events = count == 3 ? (uint32_t)strtoul(words[2], NULL, 10) : 0;
    static uint8_t buffer[PCID_RECORD_BYTES(1, SEGMENT)];
    static struct pcid_record_start start[PROCESSORS];
    const struct pcid_record_header header = {
        1, 40, PCID_RECORD_WP | PCID_RECORD_NXE, PROCESSORS, SEGMENT, start};
    uint32_t k, p;

    if (events < 8192 || !is_kind(kind)) {
        fprintf(stderr, "usage: records mixed|word|invlpg|cr3|words|scan|fresh EVENTS, at least 8192\n");
        return 64;
    }
    for (p = 0; p < PROCESSORS; p++) {
        start[p] = (struct pcid_record_start){ROOT, 1};
        for (k = 0; k < PCIDS; k++) {
            processors[p].spaces[k].generation = 1;
            processors[p].spaces[k].pages = calloc(PAGES, sizeof(struct page));
            if (!processors[p].spaces[k].pages)
                return 3;
        }
    }
    random_state = UINT64_C(0x9e3779b97f4a7c15);
    taken(pcid_record_begin(&record, &header, buffer, sizeof buffer, put, stdout));
    write_tables();
    while (pcid_record_moment(&record) < events) {
        p = random_below(PROCESSORS);
        if (!strcmp(kind, "mixed"))
            mixed(p);
        else if (!strcmp(kind, "word"))
            word(p);
        else if (!strcmp(kind, "scan"))
            scan(p);
        else if (!strcmp(kind, "fresh"))
            fresh(p);
        else if (pcid_record_moment(&record) % 2)
            read_page(p, some_page(p));
        else if (!strcmp(kind, "invlpg"))
            invlpg(p, random_below(PAGES));
        else if (!strcmp(kind, "words"))
            write_own_word(p);
        else
            load(p, random_below(PCIDS), 0);
    }
    return finish();
}
