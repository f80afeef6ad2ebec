/* SPDX-License-Identifier: MIT OR Apache-2.0 */
/*
 * walks EVENTS PROCESSORS VERSION: writes an accepted record to standard output, of processors that
 * switch between 16 address spaces, each with a PCID of its own. Most accesses are to pages that the
 * processor works on, and most are served by what it caches. There are 4-KB and 2-MB pages, and global
 * 4-KB pages of the kernel, which all spaces share. The other events write entries, invalidate by each
 * of the instructions, and load CR3; a page that is absent faults, and the next event maps it. Entries
 * are written with their accessed and dirty flags set, so that the events are the same in both versions.
 */
#include "../record.h"

#include <string.h>

/* Of a space: REGIONS leaf tables for the user and as many large pages; of the kernel, KERNEL leaf
 * tables. Pages are numbered: those of the user, the large ones, those of the kernel. */
enum { SPACES = 16, REGIONS = 24, KERNEL = 8, HOT = 96, CACHED = 4096, SEGMENT = 1000 };
enum { LARGE = REGIONS * 512, KERNEL_PAGES = LARGE + REGIONS, PAGES = KERNEL_PAGES + KERNEL * 512 };

#define PRESENT UINT64_C(0x63) /* with R/W, A and D */
#define USER UINT64_C(0x4)
#define SIZE UINT64_C(0x80)
#define GLOBAL UINT64_C(0x100)
#define NO_FETCH (UINT64_C(1) << 63)
#define KERNEL_SPACE SPACES

/* A walk by which entries are cached; count is 0 where there are none. */
struct walk {
    uint32_t count;
    uint32_t moments[4];
};

struct translation {
    struct walk walk;
    uint32_t space; /* where it was made */
    uint32_t page;
    uint64_t entry;
};

/* What a processor caches. What was read before the moment at which it was dropped is gone. */
struct processor {
    uint32_t space;
    uint32_t hot[SPACES][HOT];
    struct walk tables[SPACES][REGIONS + 1 + KERNEL]; /* by region; REGIONS for the large pages */
    uint32_t tables_dropped[SPACES];
    uint32_t space_dropped[SPACES];
    uint32_t all_dropped;
    struct translation translations[CACHED];
};

static struct processor *processors;
static uint32_t count_of_processors;
static uint64_t entries[SPACES + 1][PAGES];
/* The page that faulted last and is to be mapped, where there is one. */
static uint32_t is_pending, pending_space, pending_page;

static uint32_t now(void)
{
    return pcid_record_moment(&record);
}

static int is_kernel(uint32_t page)
{
    return page >= KERNEL_PAGES;
}

static int is_large(uint32_t page)
{
    return page >= LARGE && !is_kernel(page);
}

/* The table at a place of a space: 0 the root, 1 and 2 below it, then the leaf tables. */
static uint64_t table_of(uint32_t space, uint32_t place)
{
    return UINT64_C(0x100000) * (space + 1) + UINT64_C(0x1000) * place;
}

static uint64_t linear_of(uint32_t page)
{
    if (is_kernel(page))
        return UINT64_C(0xffff800000000000) + ((uint64_t)(page - KERNEL_PAGES) << 12);
    if (is_large(page))
        return UINT64_C(0x40000000) + ((uint64_t)(64 + page - LARGE) << 21);
    return UINT64_C(0x40000000) + ((uint64_t)page << 12);
}

static uint64_t entry_address(uint32_t space, uint32_t page)
{
    if (is_kernel(page))
        return table_of(KERNEL_SPACE, 3) + 8 * (uint64_t)(page - KERNEL_PAGES);
    if (is_large(page))
        return table_of(space, 2) + 8 * (uint64_t)(64 + page - LARGE);
    return table_of(space, 3) + 8 * (uint64_t)page;
}

static uint64_t *entry_of(uint32_t space, uint32_t page)
{
    return &entries[is_kernel(page) ? KERNEL_SPACE : space][page];
}

static uint32_t some_page(void)
{
    const uint32_t what = random_below(100);

    if (what < 15)
        return KERNEL_PAGES + (what < 14 ? random_below(64) : random_below(KERNEL * 512));
    return what < 18 ? LARGE + random_below(REGIONS) : random_below(LARGE);
}

static void map(uint32_t p, uint32_t space, uint32_t page)
{
    uint64_t entry = PRESENT | (uint64_t)(1 + random_below(1 << 17)) << (is_large(page) ? 21 : 12);

    entry |= is_kernel(page) ? GLOBAL : USER;
    entry |= is_large(page) ? SIZE : 0;
    entry |= random_below(20) ? 0 : NO_FETCH;
    *entry_of(space, page) = entry;
    taken(pcid_record_write(&record, p, entry_address(space, page), entry));
}

static void write_table(uint64_t address, uint64_t table, uint64_t user)
{
    taken(pcid_record_write(&record, 0, address, table | PRESENT | user));
}

/* The tables above the leaves are written once. */
static void write_tables(void)
{
    uint32_t space, k;

    for (space = 0; space < SPACES; space++) {
        write_table(table_of(space, 0), table_of(space, 1), USER);
        write_table(table_of(space, 0) + 8 * 256, table_of(KERNEL_SPACE, 1), 0);
        write_table(table_of(space, 1) + 8, table_of(space, 2), USER);
        for (k = 0; k < REGIONS; k++)
            write_table(table_of(space, 2) + 8 * k, table_of(space, 3 + k), USER);
    }
    write_table(table_of(KERNEL_SPACE, 1), table_of(KERNEL_SPACE, 2), 0);
    for (k = 0; k < KERNEL; k++)
        write_table(table_of(KERNEL_SPACE, 2) + 8 * k, table_of(KERNEL_SPACE, 3 + k), 0);
}

/* The tables that a processor has cached for a page, else read now. */
static struct walk tables_of(struct processor *cpu, uint32_t page)
{
    const uint32_t region = is_kernel(page)  ? REGIONS + 1 + (page - KERNEL_PAGES) / 512
                            : is_large(page) ? REGIONS
                                             : page / 512;
    struct walk *tables = &cpu->tables[cpu->space][region];
    uint32_t k;

    if (!tables->count || tables->moments[tables->count - 1] < cpu->tables_dropped[cpu->space] ||
        tables->moments[tables->count - 1] < cpu->all_dropped) {
        tables->count = is_large(page) ? 2 : 3;
        for (k = 0; k < tables->count; k++)
            tables->moments[k] = now();
    }
    return *tables;
}

static int stands(const struct processor *cpu, const struct translation *cached, uint32_t page)
{
    const uint32_t moment = cached->walk.count ? cached->walk.moments[cached->walk.count - 1] : 0;

    if (!cached->walk.count || cached->page != page || moment < cpu->all_dropped)
        return 0;
    return is_kernel(page) || (cached->space == cpu->space && moment >= cpu->space_dropped[cpu->space]);
}

static struct translation *slot_of(struct processor *cpu, uint32_t space, uint32_t page)
{
    return &cpu->translations[(page + (is_kernel(page) ? 0 : space * 577)) % CACHED];
}

static void fault(uint32_t p, uint32_t page, uint32_t flags, uint32_t code, const struct walk *walk)
{
    struct processor *cpu = &processors[p];

    slot_of(cpu, cpu->space, page)->walk.count = 0;
    cpu->tables_dropped[cpu->space] = now() + 1;
    taken(pcid_record_fault(&record, p, flags, linear_of(page), code, walk->moments, walk->count));
}

static void use(uint32_t p, uint32_t page, uint32_t operation)
{
    struct processor *cpu = &processors[p];
    struct translation *cached = slot_of(cpu, cpu->space, page);
    const uint32_t flags = operation | (is_kernel(page) ? 0 : PCID_RECORD_USER);
    const uint32_t code = (operation == PCID_RECORD_WRITE ? 2 : 0) | (flags & PCID_RECORD_USER) |
                          (operation == PCID_RECORD_FETCH ? 16 : 0);
    const uint32_t offset = random_below(is_large(page) ? 1 << 21 : 1 << 12);
    const uint64_t mask = (UINT64_C(1) << 40) - (is_large(page) ? 1 << 21 : 1 << 12);

    if (!stands(cpu, cached, page)) {
        cached->walk = tables_of(cpu, page);
        cached->walk.moments[cached->walk.count++] = now();
        cached->space = cpu->space;
        cached->page = page;
        cached->entry = *entry_of(cpu->space, page);
    }
    if (!cached->entry) {
        const struct walk walk = cached->walk;

        is_pending = 1;
        pending_space = cpu->space;
        pending_page = page;
        fault(p, page, flags, code, &walk);
    } else if (operation == PCID_RECORD_FETCH && cached->entry & NO_FETCH) {
        const struct walk walk = cached->walk;

        fault(p, page, flags, code | 1, &walk);
    } else {
        taken(pcid_record_answer(&record, p, flags, linear_of(page) + offset,
                                 (cached->entry & mask) + offset, cached->walk.moments,
                                 cached->walk.count));
    }
}

/* A page that the processor works on in its space; now and then another takes its place. */
static uint32_t working_page(struct processor *cpu)
{
    const uint32_t a = random_below(HOT), b = random_below(HOT);
    uint32_t *page = &cpu->hot[cpu->space][a < b ? a : b];

    if (!random_below(220))
        *page = some_page();
    return random_below(1000) ? *page : some_page();
}

static void load(uint32_t p)
{
    struct processor *cpu = &processors[p];
    const uint64_t keep = random_below(20) ? UINT64_C(1) << 63 : 0;

    cpu->space = random_below(20) ? (p * 4 + random_below(4)) % SPACES : random_below(SPACES);
    if (!keep)
        cpu->space_dropped[cpu->space] = cpu->tables_dropped[cpu->space] = now() + 1;
    taken(pcid_record_mov_cr3(&record, p, table_of(cpu->space, 0) | (cpu->space + 1) | keep));
}

static void invalidate(uint32_t p)
{
    struct processor *cpu = &processors[p];
    const uint32_t what = random_below(1000), space = random_below(SPACES);
    const uint32_t page = what < 500 ? working_page(cpu) : random_below(LARGE);

    if (what < 500) {
        slot_of(cpu, cpu->space, page)->walk.count = 0;
        cpu->tables_dropped[cpu->space] = now() + 1;
        taken(pcid_record_invlpg(&record, p, linear_of(page)));
    } else if (what < 800) {
        load(p);
    } else if (what < 940) {
        slot_of(cpu, space, page)->walk.count = 0;
        cpu->tables_dropped[space] = now() + 1;
        taken(pcid_record_invpcid(&record, p, 0, space + 1, linear_of(page)));
    } else if (what < 980) {
        cpu->space_dropped[space] = cpu->tables_dropped[space] = now() + 1;
        taken(pcid_record_invpcid(&record, p, 1, space + 1, 0));
    } else if (what < 998) {
        taken(pcid_record_mov_cr4(&record, p, 1));
    } else {
        cpu->all_dropped = now() + 1;
        taken(pcid_record_invpcid(&record, p, what == 998 ? 2 : 3, 0, 0));
    }
}

static void change_entry(uint32_t p)
{
    const uint32_t space = random_below(SPACES);
    const uint32_t page = random_below(20) ? processors[random_below(count_of_processors)]
                                                 .hot[space][random_below(HOT)]
                                           : some_page();

    if (random_below(50)) {
        map(p, space, page);
    } else {
        *entry_of(space, page) = 0;
        taken(pcid_record_write(&record, p, entry_address(space, page), 0));
    }
}

static void event(uint32_t p)
{
    static const uint32_t operations[] = {PCID_RECORD_READ, PCID_RECORD_READ, PCID_RECORD_READ,
                                          PCID_RECORD_WRITE, PCID_RECORD_FETCH};
    const uint32_t what = random_below(1000);

    if (is_pending) {
        is_pending = 0;
        map(p, pending_space, pending_page);
    } else if (what < 100) {
        change_entry(p);
    } else if (what < 130) {
        invalidate(p);
    } else {
        use(p, working_page(&processors[p]), operations[random_below(5)]);
    }
}

int main(int count, char **words)
{
    const uint32_t events = count == 4 ? (uint32_t)strtoul(words[1], NULL, 10) : 0;
    const uint32_t version = count == 4 ? (uint32_t)strtoul(words[3], NULL, 10) : 0;
    static uint8_t buffer[PCID_RECORD_BYTES(2, SEGMENT)];
    static struct pcid_record_start start[1024];
    struct pcid_record_header header = {version, 40, 15, 0, SEGMENT, start};
    uint32_t p, space, k;

    count_of_processors = count == 4 ? (uint32_t)strtoul(words[2], NULL, 10) : 0;
    if (events < 8192 || count_of_processors < 1 || count_of_processors > 1024) {
        fprintf(stderr, "usage: walks EVENTS PROCESSORS VERSION, at least 8192 events\n");
        return 64;
    }
    random_state = UINT64_C(0x2545f4914f6cdd1d);
    header.processors = count_of_processors;
    processors = calloc(count_of_processors, sizeof *processors);
    if (!processors)
        return 3;
    for (p = 0; p < count_of_processors; p++) {
        processors[p].space = p % SPACES;
        start[p] = (struct pcid_record_start){table_of(p % SPACES, 0) | (p % SPACES + 1), 1};
        for (space = 0; space < SPACES; space++)
            for (k = 0; k < HOT; k++)
                processors[p].hot[space][k] = some_page();
    }
    taken(pcid_record_begin(&record, &header, buffer, sizeof buffer, put, stdout));
    write_tables();
    while (now() < events / 20)
        map(random_below(count_of_processors), random_below(SPACES), some_page());
    while (now() < events)
        event(random_below(count_of_processors));
    return finish();
}
