/* SPDX-License-Identifier: MIT OR Apache-2.0 */
/* Entries: random ones, and what the tables in memory say of an address. The latter serves to
 * choose what is done; it is never recorded. */
#include "probe.h"

/* The indices of tested addresses at levels 1 to 4. */
const uint16_t indices[5][6] = {
    {0}, {0, 1, 7, 100, 258, 511}, {16, 21, 30, 63}, {0, 1, 511}, {0, 255, 300, 511}};
const uint8_t count_of_indices[5] = {0, 6, 4, 3, 4};
/* The pool's frames by the level that they mostly serve. */
const uint8_t first_of_level[5] = {0, 10, 6, 3, 0};
const uint8_t count_of_level[5] = {0, 6, 4, 3, ROOTS};

unsigned level_of_frame(uint32_t frame)
{
    unsigned level = 4;

    while (level > 1 && frame >= (uint32_t)first_of_level[level] + count_of_level[level])
        level--;
    return level;
}

enum { P = 1, RW = 2, US = 4, A = 1 << 5, D = 1 << 6, PS = 1 << 7, G = 1 << 8 };
#define XD (1ull << 63)
#define LARGE_PAT (1u << 12)

uint64_t canonical(uint64_t address)
{
    return address >> 47 & 1 ? address | 0xFFFFull << 48 : address & 0xFFFFFFFFFFFFu;
}

uint64_t index_of(uint64_t linear, unsigned level)
{
    return linear >> (3 + 9 * level) & 511;
}

static uint64_t address_of(uint64_t entry)
{
    return entry & ((1ull << machine.m) - 4096);
}

enum entry_kind kind_of(unsigned level, uint64_t entry)
{
    const int is_large = (entry & PS) != 0 && (level == 2 || level == 3);
    uint64_t reserved = (1ull << 52) - (1ull << machine.m);

    if ((entry & P) == 0)
        return ABSENT;
    if (level == 4 || (level == 3 && !machine.gigabyte_pages))
        reserved |= PS;
    if (is_large)
        reserved |= level == 3 ? 0x3FFFE000u : 0x1FE000u;
    if (!rules.nxe)
        reserved |= XD;
    if (entry & reserved)
        return RESERVED;
    return level == 1 || is_large ? LEAF : TABLE;
}

/* Rights, flags, memory types and bits that are ignored. */
static uint64_t random_bits_of(int is_leaf, int is_sound)
{
    uint64_t entry = P;

    entry |= percent(is_leaf ? 75 : 94) ? RW : 0;
    entry |= percent(is_leaf ? 62 : 94) ? US : 0;
    entry |= percent(88) ? A : 0;
    entry |= percent(is_leaf ? 70 : 10) ? D : 0;
    entry |= percent(8) ? 1u << 3 : 0;
    entry |= percent(8) ? 1u << 4 : 0;
    entry |= percent(15) ? below(8) << 9 : 0;
    entry |= percent(15) ? below(1 << 11) << 52 : 0;
    if (rules.nxe)
        entry |= percent(is_leaf ? 22 : 3) ? XD : 0;
    else if (!is_sound && allows(RESERVED_BITS))
        entry |= percent(3) ? XD : 0;
    if (allows(GLOBAL_PAGES))
        entry |= percent(is_leaf ? 35 : 10) ? G : 0;
    return acts_at_once() ? entry | A | D : entry; /* no processor sets a flag then */
}

static uint64_t random_leaf(unsigned level, int is_sound)
{
    const uint64_t entry = random_bits_of(1, is_sound);
    const int is_pooled = is_self_mapped && percent(18);
    const uint64_t frame =
        is_pooled ? POOL_FRAME(below(POOL)) : frames.address[below(frames.wanted)];
    const uint64_t pat = percent(20);

    if (level == 3)
        return entry | (frame & ~0x3FFFFFFFull) | PS | (pat ? LARGE_PAT : 0);
    if (level == 2)
        return entry | (frame & ~0x1FFFFFull) | PS | (pat ? LARGE_PAT : 0);
    return entry | frame | (pat ? PS : 0);
}

static uint64_t random_table(unsigned level, int is_sound)
{
    const uint64_t entry = random_bits_of(0, is_sound);
    const unsigned below_it = level - 1;

    if (is_self_mapped && percent(25))
        return entry | POOL_FRAME(below(POOL));
    if (is_self_mapped && percent(3))
        return entry | frames.address[below(frames.wanted)];
    return entry | POOL_FRAME(first_of_level[below_it] + below(count_of_level[below_it]));
}

static uint64_t with_reserved_bit(unsigned level, uint64_t entry)
{
    const int is_large = (entry & PS) != 0;
    const uint64_t which = below(3);

    if (which == 0 && level == 4)
        return entry | PS;
    if (which == 0 && level == 3 && is_large)
        return entry | 1u << (is_self_mapped ? 21 + below(9) : 13 + below(17));
    if (which == 0 && level == 2 && is_large)
        return entry | 1u << (13 + below(8));
    if ((which == 1 || machine.m == 52) && !rules.nxe)
        return entry | XD;
    return machine.m == 52 ? entry : entry | 1ull << (machine.m + below(52 - machine.m));
}

/* A sound one is present and has no reserved bit. */
uint64_t random_entry(unsigned level, int is_sound)
{
    const uint64_t chance = below(100);
    const int is_large = allows(LARGE_PAGES) &&
                         ((level == 2 && percent(25)) ||
                          (level == 3 && percent(14) && machine.gigabyte_pages));
    const uint64_t entry =
        level == 1 || is_large ? random_leaf(level, is_sound) : random_table(level, is_sound);

    if (is_sound)
        return entry;
    if (chance < 7)
        return 0;
    if (chance < 13)
        return (entry | below(1 << 30) << 8) & ~(uint64_t)P;
    if (chance < 20 && allows(RESERVED_BITS))
        return with_reserved_bit(level, entry);
    return entry;
}

static int is_pooled(uint64_t address)
{
    return address - POOL_ADDRESS < (uint64_t)count_of_tables * 4096;
}

/* The word of the level that the tables give for the address, or that above it where the walk ends.
 * Answers the word's level. */
unsigned find_word(uint64_t cr3, uint64_t linear, unsigned level, uint32_t *frame, uint64_t *index)
{
    uint64_t table = address_of(cr3), entry;
    unsigned at;

    for (at = 4;; at--) {
        *frame = (uint32_t)((table - POOL_ADDRESS) >> 12);
        *index = index_of(linear, at);
        entry = word_now(*frame, *index);
        if (at == level || kind_of(at, entry) != TABLE || !is_pooled(address_of(entry)))
            return at;
        table = address_of(entry);
    }
}

static int is_allowed(uint64_t all, uint64_t any, uint32_t flags)
{
    const int is_user_page = (all & US) != 0, no_execute = rules.nxe && (any & XD) != 0;
    const unsigned operation = flags & 3;

    if (flags & PCID_RECORD_USER)
        return is_user_page && (operation == PCID_RECORD_READ ||
                                (operation == PCID_RECORD_WRITE ? (all & RW) != 0 : !no_execute));
    if (operation == PCID_RECORD_FETCH)
        return !no_execute && !(is_user_page && rules.smep);
    if (is_user_page && rules.smap && !(flags & PCID_RECORD_AC))
        return 0;
    return operation == PCID_RECORD_READ || !rules.wp || (all & RW) != 0;
}

/* Whether a walk that is done now ends in a fault, and meets an entry with A=0 on its way. */
int faults_at_clear_flag(uint64_t cr3, uint64_t linear, uint32_t flags)
{
    uint64_t table = address_of(cr3), entry, all = ~0ull, any = 0;
    int has_clear_flag = 0;
    unsigned level;

    for (level = 4; is_pooled(table); level--) {
        entry = held[(table - POOL_ADDRESS) >> 12][index_of(linear, level)];
        if (kind_of(level, entry) <= RESERVED)
            return has_clear_flag;
        has_clear_flag |= (entry & A) == 0;
        all &= entry;
        any |= entry;
        if (kind_of(level, entry) == LEAF)
            return has_clear_flag && !is_allowed(all, any, flags);
        table = address_of(entry);
    }
    return has_clear_flag; /* a frame of zeros */
}
