/* SPDX-License-Identifier: MIT OR Apache-2.0 */
/*
 * cases KIND EVENTS: writes a record of one processor to standard output that names no moments, and
 * for which guesses are of little use. Some run of the machine has its events, but for `one-frame`.
 *
 *   values      one word of a leaf has had many values, and nothing was dropped; each answer is by an
 *               old one
 *   rights      the same, but the values have one frame with three sets of rights, used in turns, and
 *               then as many values have other frames
 *   windows     an upper word changes, with an INVLPG each time; then answers by leaves that were
 *               changed before all that, each of another page
 *   stale       the same, by a table that was stale when its leaves were written
 *   one-frame   as stale, with one frame for all leaves but the one that is asked for: a no at the end
 *   globals     global pages that were read under the oldest of 4,096 PCIDs, each of them another
 *   writers     leaves that never change; the tables above let users write in the first window alone;
 *               then user writes, each of another page
 *   denied      the same with faults: the tables above deny writes in the first window alone
 *   denials     the leaf of each page denies writes in a window of its own, then an upper word changes
 *               in many windows; then faults, each of another page
 *   assists     (version 2) an entry of the root has had many values, and nothing was dropped; A/D
 *               updates by the oldest of its tables and the next, in turns
 */
#include "../record.h"

#include <string.h>

enum { SEGMENT = 4096, LEAST = 20000 };

#define ROOT UINT64_C(0x1000)
#define THREE UINT64_C(0x2000)
#define OTHER_THREE UINT64_C(0x3000)
#define TWO UINT64_C(0x4000)
#define LEAVES UINT64_C(0x100000)
/* Where there are thousands of tables of levels 3 and 2. */
#define MANY_TWO (UINT64_C(1) << 32)
#define MANY_THREE (UINT64_C(1) << 33)
#define NOWHERE UINT64_C(0x80000000)
#define KEEP (UINT64_C(1) << 63)
#define USER_READ (PCID_RECORD_READ | PCID_RECORD_USER)
#define USER_WRITE (PCID_RECORD_WRITE | PCID_RECORD_USER)

static uint64_t flags_of_entries; /* A and D in version 2 */

static uint64_t written(void)
{
    return pcid_record_moment(&record);
}

static void write_word(uint64_t word, uint64_t value)
{
    taken(pcid_record_write(&record, 0, word, value == 0 ? 0 : value | flags_of_entries));
}

static void answer(uint32_t flags, uint64_t linear, uint64_t physical)
{
    taken(pcid_record_answer_unnamed(&record, 0, flags, linear, physical));
}

static void fault(uint64_t linear)
{
    taken(pcid_record_fault_unnamed(&record, 0, USER_WRITE, linear, 7));
}

/* Of a page that no access is of: all structure entries are dropped. */
static void next_window(void)
{
    taken(pcid_record_invlpg(&record, 0, UINT64_C(0xffff800000000000)));
}

static uint64_t leaf_of(uint64_t page)
{
    return LEAVES + 8 * page;
}

static uint64_t frame_of(uint64_t number)
{
    return (UINT64_C(0x1000000) + number) << 12;
}

static uint64_t other_frame(uint64_t number)
{
    return (UINT64_C(0x2000000) + number) << 12;
}

static void write_tables(uint64_t pages)
{
    uint64_t table;

    write_word(ROOT, THREE | 7);
    write_word(THREE, TWO | 7);
    write_word(OTHER_THREE, TWO | 3);
    for (table = 0; table < (pages + 511) / 512; table++)
        write_word(TWO + 8 * table, (LEAVES + 4096 * table) | 7);
}

static void write_leaves(uint64_t pages, uint64_t rights)
{
    uint64_t page;

    for (page = 0; page < pages; page++)
        write_word(leaf_of(page), frame_of(page) | rights);
}

/* Windows up to the last so many events, in which an upper word has one value or the other. */
static void windows(uint64_t events, uint64_t after, uint64_t one, uint64_t other)
{
    uint64_t number;

    for (number = 0; written() + 2 + after <= events; number++) {
        write_word(ROOT, number % 2 ? one : other);
        next_window();
    }
}

static void values(uint64_t events)
{
    uint64_t number;

    write_tables(1);
    for (number = 0; number < events / 2; number++)
        write_word(leaf_of(0), frame_of(number) | 7);
    while (written() < events)
        answer(USER_READ, 0x123, frame_of(random_bits() % (events / 2 - 1)) | 0x123);
}

static void rights(uint64_t events)
{
    static const uint32_t accesses[] = {PCID_RECORD_FETCH | PCID_RECORD_USER, USER_WRITE,
                                        PCID_RECORD_FETCH};
    uint64_t number;

    write_tables(1);
    write_word(leaf_of(0), frame_of(0) | 5);
    write_word(leaf_of(0), frame_of(0) | 7 | UINT64_C(1) << 63);
    write_word(leaf_of(0), frame_of(0) | 3);
    for (number = 1; number <= events / 2; number++)
        write_word(leaf_of(0), frame_of(number) | 1);
    for (number = 0; written() < events; number++)
        answer(accesses[number % 3], 0x123, frame_of(0) | 0x123);
}

static void changed_leaves(uint64_t events, int is_stale, int has_one_frame)
{
    const uint64_t pages = events / 5;
    uint64_t page;

    write_tables(pages);
    if (is_stale)
        write_word(ROOT, 0);
    for (page = 0; page < pages; page++)
        write_word(leaf_of(page), frame_of(has_one_frame && page + 1 < pages ? 0 : page) | 7);
    for (page = 0; page < pages; page++)
        write_word(leaf_of(page), (has_one_frame ? frame_of(0) : other_frame(page)) | 7);
    windows(events, pages, THREE | 7, OTHER_THREE | 7);
    for (page = pages; page-- > 0;) {
        const uint64_t frame = has_one_frame ? frame_of(page == 0 ? pages : 0) : frame_of(page);

        answer(USER_READ, page << 12 | 8, frame | 8);
    }
}

static void in_windows(uint64_t events)
{
    changed_leaves(events, 0, 0);
}

static void stale(uint64_t events)
{
    changed_leaves(events, 1, 0);
}

static void one_frame(uint64_t events)
{
    changed_leaves(events, 1, 1);
}

static void globals(uint64_t events)
{
    const uint64_t pages = (events - 2 * 4096) / 3;
    uint64_t page, pcid;

    write_tables(pages);
    write_leaves(pages, 0x107);
    for (pcid = 2; pcid < 4096; pcid++) {
        taken(pcid_record_mov_cr3(&record, 0, NOWHERE | pcid | KEEP));
        write_word(NOWHERE, pcid % 2 ? 0 : OTHER_THREE | 7);
    }
    for (page = 0; page < pages; page++)
        write_word(leaf_of(page), 0);
    for (page = 0; page < pages; page++)
        answer(USER_READ, page << 12 | 8, frame_of(page) | 8);
}

/* Tables above that give other rights in the first window than in all others. */
static void first_window(uint64_t events, uint64_t first, uint64_t later)
{
    const uint64_t pages = events / 3;

    write_tables(pages);
    write_leaves(pages, 7);
    write_word(ROOT, THREE | first);
    next_window();
    windows(events, pages, THREE | later, THREE | later | 1 << 9);
}

static void writers(uint64_t events)
{
    uint64_t page;

    first_window(events, 7, 5);
    for (page = 0; page < events / 3; page++)
        answer(USER_WRITE, page << 12 | 8, frame_of(page) | 8);
}

static void denied(uint64_t events)
{
    uint64_t page;

    first_window(events, 5, 7);
    for (page = 0; page < events / 3; page++)
        fault(page << 12 | 8);
}

static void denials(uint64_t events)
{
    const uint64_t pages = events / 7;
    uint64_t page;

    write_tables(pages);
    write_leaves(pages, 7);
    for (page = 0; page < pages; page++) {
        write_word(leaf_of(page), frame_of(page) | 5);
        next_window();
        write_word(leaf_of(page), frame_of(page) | 7);
    }
    windows(events, pages, THREE | 7, THREE | 7 | 1 << 9);
    for (page = 0; page < pages; page++)
        fault(page << 12 | 8);
}

static void assists(uint64_t events)
{
    const uint64_t tables = events / 6;
    uint64_t number;

    for (number = 0; number < tables; number++)
        write_word(MANY_THREE + 4096 * number, (MANY_TWO + 4096 * number) | 7);
    for (number = 0; number < 2 * tables; number++)
        write_word(MANY_TWO + 4096 * (number % 2) + 8 * (number / 2 % 512),
                   (LEAVES + 4096 * (number % 2)) | 7);
    for (number = 0; number < tables; number++)
        write_word(ROOT, (MANY_THREE + 4096 * number) | 7);
    for (number = 0; written() < events; number++) {
        const uint64_t place = number / 2 % 512;

        taken(pcid_record_assist_unnamed(&record, 0, USER_READ, place << 21,
                                         MANY_TWO + 4096 * (number % 2) + 8 * place));
    }
}

static const struct {
    const char *name;
    void (*make)(uint64_t events);
    uint32_t version;
} kinds[] = {
    {"values", values, 1}, {"rights", rights, 1}, {"windows", in_windows, 1}, {"stale", stale, 1},
    {"one-frame", one_frame, 1}, {"globals", globals, 1}, {"writers", writers, 1},
    {"denied", denied, 1}, {"denials", denials, 1}, {"assists", assists, 2},
};

int main(int count, char **words)
{
    static uint8_t buffer[PCID_RECORD_BYTES(2, SEGMENT)];
    const struct pcid_record_start start = {ROOT | 1, 1};
    const uint64_t events = count == 3 ? strtoull(words[2], NULL, 10) : 0;
    size_t kind;

    for (kind = 0; events >= LEAST && kind < sizeof kinds / sizeof *kinds; kind++) {
        const struct pcid_record_header header = {
            kinds[kind].version, 48, PCID_RECORD_WP | PCID_RECORD_NXE | PCID_RECORD_SMEP, 1, SEGMENT,
            &start};

        if (strcmp(words[1], kinds[kind].name) != 0)
            continue;
        random_state = 7;
        flags_of_entries = header.version == 2 ? 0x60 : 0;
        taken(pcid_record_begin(&record, &header, buffer, sizeof buffer, put, stdout));
        kinds[kind].make(events);
        return finish();
    }
    fprintf(stderr, "usage: cases KIND EVENTS, at least %d\n", LEAST);
    return 64;
}
