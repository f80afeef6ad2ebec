/* SPDX-License-Identifier: MIT OR Apache-2.0 */
/*
 * Focused streams: one word W that processor 0 rewrites again and again, while the others read and
 * invalidate what is reached through it, and through words that stay.
 *
 *     1  W leads from level 2 to one of two tables     2  to a table, or is a 2-MB page
 *     3  W leads from level 3 to one of two tables     4  each of these, by the seed
 *     5  W leads from level 2 to a table, or is absent: the others read as ring 3, which that
 *        table's pages refuse, invalidate, and read as ring 0
 */
#include "machine.h"
#include "probe.h"

enum { TO_TABLES = 1, TO_PAGE, TO_DIRECTORIES, BY_SEED, ABSENT_OR_NOT };
enum { ROOT = 0, PDPT = 3, DIRECTORY = 6, OTHER_DIRECTORY = 7, TABLE_FRAME = 10, OTHER_TABLE = 11 };
enum { SOUND = 0x67, MOST_ROUNDS = 20000, PAGE_SIZE_BIT = 0x80, USER_BIT = 4, TESTED = 6 };

static uint64_t focus(void)
{
    return settings.focus == BY_SEED ? 1 + settings.seed % 3 : settings.focus;
}

static uint64_t leaf(uint32_t table, uint64_t k, uint64_t which)
{
    return frames.address[(table - TABLE_FRAME) * 24 + TESTED * which + k] | SOUND;
}

static void store_focus(uint64_t which)
{
    if (focus() == TO_DIRECTORIES)
        store_at_once(PDPT, 0, POOL_FRAME(which ? OTHER_DIRECTORY : DIRECTORY) | SOUND);
    else if (focus() == ABSENT_OR_NOT)
        store_at_once(DIRECTORY, indices[2][0], which ? 0 : POOL_FRAME(TABLE_FRAME) | SOUND);
    else if (focus() == TO_PAGE && which)
        store_at_once(DIRECTORY, indices[2][0],
                      (uint64_t)indices[2][3] << 21 | SOUND | PAGE_SIZE_BIT);
    else
        store_at_once(DIRECTORY, indices[2][0],
                      POOL_FRAME(which ? OTHER_TABLE : TABLE_FRAME) | SOUND);
}

void write_focus_tables(void)
{
    const uint64_t refused = focus() == ABSENT_OR_NOT ? USER_BIT : 0;
    uint32_t k;

    store_at_once(ROOT, 0, POOL_FRAME(PDPT) | SOUND);
    store_at_once(ROOT + 1, 0, POOL_FRAME(PDPT) | SOUND);
    store_at_once(PDPT, 0, POOL_FRAME(DIRECTORY) | SOUND);
    store_at_once(PDPT, 1, POOL_FRAME(OTHER_DIRECTORY) | SOUND);
    store_at_once(PDPT, 511, POOL_FRAME(DIRECTORY) | SOUND);
    for (k = 0; k < 3; k++)
        store_at_once(DIRECTORY, indices[2][k],
                      POOL_FRAME(k < 2 ? TABLE_FRAME : OTHER_TABLE) | SOUND);
    for (k = 0; k < 2; k++)
        store_at_once(OTHER_DIRECTORY, indices[2][k], POOL_FRAME(OTHER_TABLE) | SOUND);
    for (k = 0; k < TESTED; k++) {
        store_at_once(TABLE_FRAME, indices[1][k], leaf(TABLE_FRAME, k, 0) & ~refused);
        store_at_once(OTHER_TABLE, indices[1][k], leaf(OTHER_TABLE, k, 0));
    }
}

/* Mostly through W. */
static uint64_t page_of(uint64_t k)
{
    static const uint64_t others[] = {1ull << 30, 511ull << 30};
    const int is_through = percent(75);
    const uint64_t page = (uint64_t)indices[1][k] << 12;

    if (focus() == TO_DIRECTORIES)
        return page | (uint64_t)indices[2][0] << 21 | (is_through ? 0 : others[below(2)]);
    return page | (uint64_t)indices[2][is_through ? 0 : 1 + below(2)] << 21;
}

/* Processor 0 gives the others time between its writes. */
static void race_with_absent(uint64_t *again)
{
    const uint64_t until = counter_page[0] + 10 + below(30);
    struct access access = {READ, 1, 1, (uint64_t)indices[2][0] << 21};
    uint64_t round;

    if (own_number() == 0) {
        for (round = 0; counter_page[0] < until && round < MOST_ROUNDS && !others_are_done();
             round++)
            pause();
        store_focus(*again ^= 1);
    } else if (!access_at_once(&access)) {
        if (allows(BARE_FAULTS))
            invalidate_page_at_once(access.page);
        access.is_user = 0;
        access_at_once(&access);
    }
}

static void write_leaf(void)
{
    const uint32_t table = percent(50) ? TABLE_FRAME : OTHER_TABLE;
    const uint64_t k = below(4);

    store_at_once(table, indices[1][k], percent(30) ? 0 : leaf(table, k, below(2)));
}

void focus_event(uint64_t *again, int *follows_up)
{
    const uint64_t chance = below(100);
    struct access access = {READ, 0, 1, *again};

    if (focus() == ABSENT_OR_NOT) {
        race_with_absent(again);
    } else if (*follows_up) {
        *follows_up = 0;
        access_at_once(&access);
    } else if (own_number() == 0 && chance < 60) {
        store_focus(below(2));
    } else if (chance < 15) {
        write_leaf();
    } else if (chance < 40) {
        *again = page_of(below(4));
        invalidate_page_at_once(*again);
        *follows_up = 1;
    } else if (chance < 50) {
        load_cr3_at_once(POOL_FRAME(below(2)));
    } else {
        access.page = page_of(below(4));
        access.is_user = percent(50);
        access.operation = percent(80) ? READ : WRITE;
        access_at_once(&access);
    }
}
