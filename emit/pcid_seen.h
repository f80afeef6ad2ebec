/* SPDX-License-Identifier: MIT OR Apache-2.0 */
/*
 * pcid_seen.h: says which accesses of a processor need no event, for recorders that see every
 * access, such as emulators.
 *
 * One header, for kernels too: C99 or C++, no allocation, no variable of its own, no library. Each
 * processor has a `struct pcid_seen`, and its record version 1 or 2. Each call stands beside the
 * call of emit/pcid_record.h that records the same event:
 *
 *     if (!pcid_seen_answer(&seen[cpu], flags, linear, physical))
 *         pcid_record_answer_unnamed(&record, cpu, flags, linear, physical);
 *
 *     pcid_seen_invlpg(&seen[cpu], linear);
 *     pcid_record_invlpg(&record, cpu, linear);
 *
 * An access needs no event where the same processor has already recorded an access of the same
 * kind to the same page, under the same PCID and with the same answer, and has recorded no event
 * since that may have dropped that page's translation. docs/RECORDING.md ("For an emulator") says
 * why the verdict and the first rejected event are those of the whole record.
 *
 * Calls on one `struct pcid_seen` never overlap. A write, an assist and an access with an answer
 * drop nothing and have no call here, apart from pcid_seen_answer.
 */
#ifndef PCID_SEEN_H
#define PCID_SEEN_H

#include "pcid_record.h"

#ifdef __cplusplus
extern "C" {
#endif

/* How much an invalidation of one page forgets: everything in the naturally aligned region of 2 to
 * the power of this many bytes. No page of the guest may be larger than a region, because an
 * invalidation anywhere in a page drops the translation of the whole page. */
#define PCID_SEEN_2MB 21u /* for a guest without 1-GB pages */
#define PCID_SEEN_1GB 30u /* for every guest */
#define PCID_SEEN_ALL 48u /* an invalidation of one page forgets everything */

/* The counters of regions. Regions that share a counter are forgotten together. */
#define PCID_SEEN_REGIONS 4096u

/* An access that was recorded. Bytes that are all 0 stand for none. */
struct pcid_seen_slot {
    uint64_t page;  /* of the linear address */
    uint64_t frame; /* of the physical address */
    uint64_t epoch; /* what pcid_seen_epoch_ gave then, which is never 0 */
    uint16_t pcid;
    uint16_t flags;
};

/* What one processor has recorded. The caller owns it, and changes nothing in it. The counters
 * only grow. */
struct pcid_seen {
    struct pcid_seen_slot *slots;
    uint32_t mask;        /* one less than the number of slots */
    uint32_t region_bits; /* PCID_SEEN_2MB, PCID_SEEN_1GB or PCID_SEEN_ALL */
    uint32_t pcid;        /* the current one */
    uint64_t everything;  /* events that may have dropped any translation */
    uint64_t of_pcid[4096];                /* events that may have dropped those of a PCID */
    uint64_t of_region[PCID_SEEN_REGIONS]; /* events that may have dropped those of a region */
};

/* What follows up to pcid_seen_begin, with names that end in `_`, is not for callers. */

static inline uint32_t pcid_seen_mix_(uint64_t number)
{
    number *= 0x9E3779B97F4A7C15;
    return (uint32_t)(number >> 40);
}

static inline uint64_t *pcid_seen_region_(struct pcid_seen *seen, uint64_t linear)
{
    const uint64_t region = (linear & 0xFFFFFFFFFFFF) >> seen->region_bits;

    return &seen->of_region[pcid_seen_mix_(region) % PCID_SEEN_REGIONS];
}

/* Three counters that only grow, so that an equal sum means that none of them has grown. */
static inline uint64_t pcid_seen_epoch_(struct pcid_seen *seen, uint64_t linear)
{
    return 1 + seen->everything + seen->of_pcid[seen->pcid] + *pcid_seen_region_(seen, linear);
}

/*
 * Begins with nothing recorded. `slots` has `count` elements, a power of two: with fewer slots
 * more accesses are recorded. `cr3` is the processor's, as in the header of the record.
 * Called again when another record begins.
 */
static inline void pcid_seen_begin(struct pcid_seen *seen, struct pcid_seen_slot *slots,
                                   uint32_t count, uint32_t region_bits, uint64_t cr3)
{
    const struct pcid_seen_slot none = {0, 0, 0, 0, 0};
    uint32_t k;

    for (k = 0; k < count; k++)
        slots[k] = none;
    for (k = 0; k < 4096; k++)
        seen->of_pcid[k] = 0;
    for (k = 0; k < PCID_SEEN_REGIONS; k++)
        seen->of_region[k] = 0;
    seen->slots = slots;
    seen->mask = count - 1;
    seen->region_bits = region_bits;
    seen->pcid = (uint32_t)(cr3 & 0xFFF);
    seen->everything = 0;
}

/*
 * Whether this access with an answer needs no event: 1, or 0 where the caller is to record it. It
 * counts as recorded from then on. The fields are those of pcid_record_answer.
 */
static inline int pcid_seen_answer(struct pcid_seen *seen, uint32_t flags, uint64_t linear,
                                   uint64_t physical)
{
    const uint64_t page = linear >> 12, frame = physical >> 12;
    const uint64_t epoch = pcid_seen_epoch_(seen, linear);
    struct pcid_seen_slot *slot =
        &seen->slots[pcid_seen_mix_(page ^ (uint64_t)seen->pcid << 36 ^ (uint64_t)flags << 48) &
                     seen->mask];

    /* An answer at another offset in its frame is wrong, whatever was recorded before. */
    if (((linear ^ physical) & 0xFFF) != 0)
        return 0;
    if (slot->page == page && slot->frame == frame && slot->epoch == epoch &&
        slot->pcid == seen->pcid && slot->flags == flags)
        return 1;
    slot->page = page;
    slot->frame = frame;
    slot->epoch = epoch;
    slot->pcid = (uint16_t)seen->pcid;
    slot->flags = (uint16_t)flags;
    return 0;
}

/* The processor got a page fault at `linear`, which drops translations of its page. */
static inline void pcid_seen_fault(struct pcid_seen *seen, uint64_t linear)
{
    ++*pcid_seen_region_(seen, linear);
}

/* The processor carried out a MOV to CR3, with this operand. */
static inline void pcid_seen_mov_cr3(struct pcid_seen *seen, uint64_t operand)
{
    seen->pcid = (uint32_t)(operand & 0xFFF);
    if (operand >> 63 == 0)
        seen->of_pcid[seen->pcid]++;
}

/* The processor carried out an INVLPG. */
static inline void pcid_seen_invlpg(struct pcid_seen *seen, uint64_t linear)
{
    ++*pcid_seen_region_(seen, linear);
}

/* The processor carried out an INVPCID. The fields are those of pcid_record_invpcid. */
static inline void pcid_seen_invpcid(struct pcid_seen *seen, uint64_t type, uint64_t pcid,
                                     uint64_t linear)
{
    if (type == 0)
        ++*pcid_seen_region_(seen, linear);
    else if (type == 1)
        seen->of_pcid[pcid & 0xFFF]++;
    else
        seen->everything++;
}

/* The processor carried out a MOV to CR4, which drops everything where it changes PGE. */
static inline void pcid_seen_mov_cr4(struct pcid_seen *seen)
{
    seen->everything++;
}

#ifdef __cplusplus
}
#endif

#endif
