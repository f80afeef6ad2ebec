/* SPDX-License-Identifier: MIT OR Apache-2.0 */
/*
 * Physical frames. Each frame that a tested address can lead to holds, at one offset, a slot of 32
 * bytes that says where it lies: what answered an access is read from it.
 *
 *     + 0   its own address                        for reads
 *     + 8   mov eax, its own address; ud2          for fetches
 *     + 16  a descriptor whose limit is the frame  for implicit accesses
 *     + 24  its own address                        for reads and writes
 *
 * The four words have indices in a table that no tested address has, so that a table frame can
 * hold a slot too.
 */
#include "probe.h"

struct data_frames frames;
uint64_t held[MOST_TABLES][512] FAR;
uint32_t count_of_tables;
uint64_t home_root[512] __attribute__((aligned(4096)));
static uint64_t home_pdpt[512] __attribute__((aligned(4096)));
static uint64_t home_pd[3][512] __attribute__((aligned(4096)));
static uint64_t ring_3_tables[3][512] __attribute__((aligned(4096)));
static uint8_t ring_3_page[4096] __attribute__((aligned(4096)));
volatile uint64_t counter_page[512] __attribute__((aligned(4096)));

enum { MEMORY_GIGABYTES = 2, DEVICES_GIGABYTE = 3, LOW_MEMORY = 128 << 20 };

/* The tables of the guest's own slots: memory by 2-MB pages, and the APIC. */
void lay_out_home(void)
{
    uint64_t page;
    unsigned k;

    for (k = 0; k < MEMORY_GIGABYTES; k++) {
        for (page = 0; page < 512; page++)
            home_pd[k][page] = (uint64_t)k << 30 | page << 21 | 0xE3;
        home_pdpt[k] = physical_of(home_pd[k]) | 0x23;
    }
    home_pd[2][0x1F7] = 0xFEE000F3u; /* the APIC's page, uncached */
    home_pdpt[DEVICES_GIGABYTE] = physical_of(home_pd[2]) | 0x23;
    for (k = 0; stubs_begin + k < stubs_end; k++)
        ring_3_page[k] = stubs_begin[k];
    ring_3_tables[0][0] = physical_of(ring_3_tables[1]) | 0x27;
    ring_3_tables[1][0] = physical_of(ring_3_tables[2]) | 0x27;
    ring_3_tables[2][0] = physical_of(ring_3_page) | 0x25;
    ring_3_tables[2][1] = physical_of((const void *)counter_page) | 0x67;
    home_root[MEMORY_SLOT] = physical_of(home_pdpt) | 0x23;
    home_root[RING_3_SLOT] = physical_of(ring_3_tables[0]) | 0x27;
}

static void add_frames(uint64_t base)
{
    unsigned k;

    for (k = 0; k < count_of_indices[1]; k++)
        if (base + ((uint64_t)indices[1][k] << 12) >= POOL_FRAME(POOL) ||
            base + ((uint64_t)indices[1][k] << 12) < POOL_ADDRESS)
            frames.address[frames.count++] = base + ((uint64_t)indices[1][k] << 12);
}

/* Mapped on purpose are the frames of two GBs that large pages reach by the tested indices too. The
 * others are met where an entry of one level is used at another. */
void lay_out_frames(void)
{
    uint64_t gigabyte;
    unsigned k;

    frames.count = 0;
    for (gigabyte = 0; gigabyte < MEMORY_GIGABYTES; gigabyte++)
        for (k = 0; k < count_of_indices[2]; k++)
            add_frames(gigabyte << 30 | (uint64_t)indices[2][k] << 21);
    frames.wanted = frames.count;
    add_frames(0);
    add_frames(1u << 30);
    add_frames(POOL_ADDRESS);
}

/* One for a record; four times each, and what follows it, is no tested index. */
static uint64_t slot_number;
uint64_t slot_offset(void)
{
    return SLOT * slot_number;
}

uint64_t slot_word(uint64_t slot, unsigned number)
{
    const uint64_t frame = slot >> 12;

    if (number == 1)
        return 0xB8u | (slot + 8) << 8 | 0x90900B0Full << 40;
    if (number == 2)
        return (frame & 0xFFFF) | 0x0000F20000000000u | (frame >> 16 & 15) << 48;
    return slot + 8 * number;
}

static void clear_frame(uint64_t address)
{
    unsigned k;

    for (k = 0; k < 512; k++)
        *word_at(address + 8 * k) = 0;
}

void choose_slot(void)
{
    static const uint8_t slots[] = {2, 3, 19, 40, 62, 90, 126};

    /* (behind the slot each processor that acts at once has a word that it writes) */
    slot_number = slots[below(acts_at_once() ? sizeof slots - 1 : sizeof slots)];
}

void set_slot(uint64_t number)
{
    slot_number = number;
}

/* All frames as they are at the start of a record. */
void begin_frames(void)
{
    unsigned k, word;

    for (k = 0; k < count_of_tables; k++) {
        clear_frame(POOL_FRAME(k));
        for (word = 0; word < 512; word++)
            held[k][word] = 0;
    }
    for (k = 0; k < frames.count; k++) { /* of a replay some may lie between the tables */
        clear_frame(frames.address[k]);
        for (word = 0; word < 4; word++)
            *word_at(frames.address[k] + slot_offset() + 8 * word) =
                slot_word(frames.address[k] + slot_offset(), word);
    }
}

/* Looks at one frame for the value, and puts back what the slot held. */
static int found_at(uint64_t physical, uint64_t value)
{
    if (*word_at(physical) != value)
        return 0;
    *word_at(physical) = physical;
    return 1;
}

/* Where a value was written that no other word has: how many frames have it at the offset, and one
 * of them. All memory is looked through where those that were expected lack it. */
int find_written(uint64_t value, uint64_t offset, uint64_t *physical)
{
    uint64_t frame;
    int count = 0;
    unsigned k;

    for (k = 0; k < frames.count + count_of_tables; k++) {
        frame = k < frames.count ? frames.address[k] : POOL_FRAME(k - frames.count);
        if (found_at(frame + offset, value)) {
            *physical = frame + offset;
            count++;
        }
    }
    for (frame = 0; count == 0 && frame < (1u << 30) + LOW_MEMORY; frame += 4096) {
        if (frame == LOW_MEMORY) /* the next that is surely memory */
            frame = 1u << 30;
        if (*word_at(frame + offset) == value) {
            *physical = frame + offset;
            count++;
        }
    }
    return count;
}
