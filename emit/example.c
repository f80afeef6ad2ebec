/* SPDX-License-Identifier: MIT OR Apache-2.0 */
/*
 * A toy hypervisor of two virtual processors, which keeps a shadow for each: 64 shadow entries, and
 * with each the moments of the walk that made it. It writes the record of a random run to standard
 * output, which pcid-audit answers with yes:
 *
 *     cc -std=c99 -o example emit/example.c && ./example | ./pcid-audit check
 *
 * Built with -DBUG it forgets one invalidation: INVLPG does not drop a shadow entry of a global
 * page that another PCID's walk made. pcid-audit answers no, and names the access that used one.
 *
 * The guest's tables: two PML4 tables, 0x1000 and 0x2000, each with one PDPT, one PD and two PTs
 * behind it, in the pages up to 0xA000. Linear addresses are 0 to 0x3FFFFF.
 */
#include <stdio.h>

#include "pcid_record.h"

enum { PROCESSORS = 2, SLOTS = 64, SEGMENT = 256, STEPS = 4000 };

struct shadow {
    int used, global;
    uint32_t pcid, moments[4];
    uint64_t page, frame;
    int write, user; /* rights */
};

static struct processor {
    uint64_t root;
    uint32_t pcid, pge;
    struct shadow slot[SLOTS];
} processor[PROCESSORS];

static uint64_t table[0xB000 / 8]; /* the guest's memory, as far as it holds tables */
static uint8_t buffer[PCID_RECORD_BYTES(1, SEGMENT)];
static struct pcid_record record;
static int refused;

static int put(void *file, const uint8_t *bytes, size_t count)
{
    return fwrite(bytes, 1, count, (FILE *)file) != count;
}

static void taken(enum pcid_record_status status)
{
    if (status != PCID_RECORD_TAKEN)
        refused = 1;
}

static uint32_t any(uint32_t below)
{
    static uint64_t seed = 1;

    seed = seed * 6364136223846793005u + 1442695040888963407u;
    return (uint32_t)(seed >> 33) % below;
}

/* The one place where tables are written: the write and its event are one step. */
static void guest_writes(uint32_t p, uint64_t address, uint64_t value)
{
    table[address / 8] = value;
    taken(pcid_record_write(&record, p, address, value));
}

/* Drops the shadow entries of p with this page (-1: any) and this PCID (-1: any), and of the
 * global ones those with this page, or none. */
static void drop(uint32_t p, int64_t page, int64_t pcid, int globals)
{
    struct shadow *s;

    for (s = processor[p].slot; s < processor[p].slot + SLOTS; s++)
        if ((page < 0 || s->page == (uint64_t)page) &&
            (s->global ? globals : pcid < 0 || s->pcid == (uint32_t)pcid))
            s->used = 0;
}

static struct shadow *find(uint32_t p, uint64_t page)
{
    struct shadow *s;

    for (s = processor[p].slot; s < processor[p].slot + SLOTS; s++)
        if (s->used && s->page == page && (s->global || s->pcid == processor[p].pcid))
            return s;
    return NULL;
}

/* A guest's access: by a shadow entry where one stands, else by a walk, which makes one. */
static void guest_accesses(uint32_t p, uint64_t linear, uint32_t flags)
{
    const int write = (flags & PCID_RECORD_WRITE) != 0, user = (flags & PCID_RECORD_USER) != 0;
    struct processor *const cpu = &processor[p];
    struct shadow made = {1, 0, 0, {0, 0, 0, 0}, 0, 0, 1, 1}, *hit = find(p, linear >> 12);
    uint64_t entry = cpu->root;
    uint32_t level;

    if (hit == NULL) {
        for (level = 4; level > 0; level--) {
            made.moments[4 - level] = pcid_record_moment(&record);
            entry = table[((entry & 0xFFFFFF000) + (linear >> (3 + 9 * level) & 511) * 8) / 8];
            if ((entry & 1) == 0) { /* not present: the fault is of the walk, read just now */
                taken(pcid_record_fault(&record, p, flags, linear, write * 2u + user * 4u,
                                        made.moments, 5 - level));
                drop(p, (int64_t)(linear >> 12), cpu->pcid, 1);
                return;
            }
            made.write &= (entry & 2) != 0;
            made.user &= (entry & 4) != 0;
        }
        made.pcid = cpu->pcid;
        made.global = cpu->pge && (entry & 0x100) != 0;
        made.page = linear >> 12;
        made.frame = entry & 0xFFFFFF000;
        hit = &cpu->slot[any(SLOTS)]; /* what stood there is forgotten */
        *hit = made;
    }
    if ((user && !hit->user) || (write && !hit->write)) { /* denied, by the shadow entry */
        taken(pcid_record_fault(&record, p, flags, linear, 1u + write * 2u + user * 4u,
                                hit->moments, 4));
        drop(p, (int64_t)(linear >> 12), cpu->pcid, 1);
        return;
    }
    taken(pcid_record_answer(&record, p, flags, linear, hit->frame + (linear & 0xFFF),
                             hit->moments, 4));
}

static void guest_loads_cr3(uint32_t p, uint64_t operand)
{
    processor[p].root = operand & 0xFFFFFF000;
    processor[p].pcid = operand & 0xFFF;
    taken(pcid_record_mov_cr3(&record, p, operand));
    if (operand >> 63 == 0)
        drop(p, -1, operand & 0xFFF, 0);
}

static void guest_invalidates(uint32_t p, uint64_t linear)
{
    taken(pcid_record_invlpg(&record, p, linear));
#ifdef BUG
    drop(p, (int64_t)(linear >> 12), processor[p].pcid, 0);
#else
    drop(p, (int64_t)(linear >> 12), processor[p].pcid, 1);
#endif
}

static void guest_invalidates_pcid(uint32_t p, uint32_t type, uint32_t pcid, uint64_t linear)
{
    taken(pcid_record_invpcid(&record, p, type, type < 2 ? pcid : 0, type == 0 ? linear : 0));
    drop(p, type == 0 ? (int64_t)(linear >> 12) : -1, type < 2 ? (int64_t)pcid : -1, type == 2);
}

int main(void)
{
    static const uint64_t roots[2] = {0x1000, 0x2000};
    const struct pcid_record_start start[PROCESSORS] = {{0x1001, 1}, {0x2002, 1}};
    const struct pcid_record_header header = {1, 40, PCID_RECORD_WP | PCID_RECORD_NXE,
                                              PROCESSORS, SEGMENT, start};
    uint32_t p, step, k;

    taken(pcid_record_begin(&record, &header, buffer, sizeof buffer, put, stdout));
    for (p = 0; p < PROCESSORS; p++) {
        processor[p].root = start[p].cr3 & 0xFFFFFF000;
        processor[p].pcid = start[p].cr3 & 0xFFF;
        processor[p].pge = start[p].pge;
    }
    for (k = 0; k < 2; k++) { /* PML4E, PDPTE and two PDEs for each root */
        guest_writes(0, roots[k], (0x3000 + k * 0x4000) | 7);
        guest_writes(0, 0x3000 + k * 0x4000, (0x4000 + k * 0x4000) | 7);
        guest_writes(0, 0x4000 + k * 0x4000, (0x5000 + k * 0x4000) | 7);
        guest_writes(0, 0x4008 + k * 0x4000, (0x6000 + k * 0x4000) | 7);
    }
    for (step = 0; step < STEPS; step++) {
        const uint32_t what = any(16), at = any(8), dice = any(0x1000), pcid = 1 + dice % 2;
        const uint64_t linear = (uint64_t)(at / 4) << 21 | at % 4 << 12 | dice;

        p = any(PROCESSORS);
        if (what < 3) /* a PTE: absent or present, with U/S, R/W and G or without */
            guest_writes(p, 0x5000 + (pcid - 1) * 0x4000 + at / 4 * 0x1000 + at % 4 * 8,
                         (uint64_t)any(256) << 12 | (dice & 0x106) | (any(4) != 0));
        else if (what == 3)
            guest_loads_cr3(p, (uint64_t)any(2) << 63 | roots[pcid - 1] | pcid);
        else if (what == 4)
            guest_invalidates(p, linear);
        else if (what == 5)
            guest_invalidates_pcid(p, any(4), pcid, linear);
        else
            guest_accesses(p, linear, dice >> 1 & (PCID_RECORD_WRITE | PCID_RECORD_USER));
    }
    taken(pcid_record_end(&record));
    return refused || fflush(stdout) != 0;
}
