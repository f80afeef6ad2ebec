/* SPDX-License-Identifier: MIT OR Apache-2.0 */
/*
 * What random runs choose from: few pages, used again and again, so that what was cached before
 * matters. Processors that act at once have a stream each, and share the pages. Where they act one
 * at a time processor 0 chooses for all.
 */
#include "probe.h"

enum { RECENT = 4, ANSWERED = 6 };

static uint64_t pages[PAGES]; /* tested addresses, of which the first are used */
static uint64_t count_of_pages;
static volatile uint64_t recent[RECENT]; /* the pages that are likely to be used next */
static uint16_t pcids[4];

static struct stream {
    struct access answered[ANSWERED]; /* accesses that got an answer of late, to be done again */
    uint32_t count_of_answered;
    uint64_t last_page;
} streams[MOST_PROCESSORS] __attribute__((aligned(64)));

static struct stream *own(void)
{
    return &streams[own_number()];
}

static uint64_t pick(unsigned level)
{
    return (uint64_t)indices[level][below(count_of_indices[level])] << (3 + 9 * level);
}

void choose_pages(uint64_t count)
{
    unsigned k;

    count_of_pages = count;
    pcids[0] = 0;
    pcids[1] = 1;
    pcids[2] = 0xFFF;
    pcids[3] = (uint16_t)(2 + below(4000));
    for (k = 0; k < 4 && !rules.pcide; k++)
        pcids[k] = 0;
    for (k = 0; k < PAGES; k++)
        pages[k] = canonical(pick(4) | pick(3) | pick(2) | pick(1));
    for (k = 0; k < RECENT; k++)
        recent[k] = pages[below(count_of_pages)];
    for (k = 0; k < MOST_PROCESSORS; k++) {
        streams[k].count_of_answered = 0;
        streams[k].last_page = pages[0];
    }
}

uint64_t some_pcid(void)
{
    return pcids[below(4)];
}

/* At once also a page of another's stream. */
uint64_t likely_page(void)
{
    const struct stream *const of =
        acts_at_once() && percent(30) ? &streams[below(count_of_processors)] : own();
    uint64_t page;

    if (of->count_of_answered > 0 && percent(45))
        return of->answered[below(of->count_of_answered)].page;
    page = percent(55) ? recent[below(RECENT)] : pages[below(count_of_pages)];
    recent[below(RECENT)] = page;
    return page;
}

/* For what invalidates: with this chance a likely page, else mostly one near a tested page. */
static uint64_t some_address(uint64_t chance)
{
    uint64_t address;

    if (percent(chance))
        address = likely_page();
    else if (percent(60))
        address = pages[below(count_of_pages)] ^ pick(1);
    else
        address = pick(4) | (random_bits() & ((1ull << 39) - 1));
    return canonical((address & ~4095ull) | below(4096));
}

uint64_t address_to_invalidate(void)
{
    return some_address(acts_at_once() ? 80 : 70);
}

uint64_t random_cr3(uint64_t cr3)
{
    const uint64_t root = percent(30) ? cr3 & ~4095ull : POOL_FRAME(below(ROOTS));
    const uint64_t keep = percent(50) && rules.pcide;

    return root | some_pcid() | keep << 63;
}

struct invalidation random_invalidation(uint64_t cr3)
{
    const uint64_t chance = below(10);
    const uint64_t type = chance < 5 ? 0 : chance < 8 ? 1 : chance < 9 ? 3 : 2;
    const uint64_t pcid = percent(60) ? cr3 & 4095 : some_pcid();
    const struct invalidation chosen = {type, type < 2 ? pcid : 0,
                                        type == 0 ? address_to_invalidate() : 0};

    return chosen;
}

struct access random_access(void)
{
    const uint64_t chance = below(100);
    struct stream *const stream = own();
    struct access access;

    access.operation = chance < 48 ? READ : chance < 72 ? WRITE : chance < 92 ? FETCH : LOAD_LIMIT;
    access.is_user = percent(55);
    access.ac = percent(rules.smap ? 50 : 25);
    access.page = percent(30) ? stream->last_page : likely_page();
    if (stream->count_of_answered > 0 && percent(50)) {
        access = stream->answered[below(stream->count_of_answered)];
        if (access.operation != FETCH && percent(30))
            access.operation = percent(60) ? READ : WRITE;
    }
    return access;
}

int is_kind_allowed(const struct access *access)
{
    if ((access->is_user && !allows(USER)) || (access->operation == WRITE && !allows(WRITES)) ||
        (access->operation == FETCH && !allows(FETCHES)) ||
        (access->operation == LOAD_LIMIT && !allows(IMPLICIT)))
        return 0;
    return access->operation != LOAD_LIMIT || !access->ac || allows(IMPLICIT_AC);
}

void note_page(uint64_t page)
{
    own()->last_page = page;
}

void note_answered(const struct access *access)
{
    struct stream *const stream = own();

    stream->answered[stream->count_of_answered < ANSWERED ? stream->count_of_answered++
                                                          : below(ANSWERED)] = *access;
}
