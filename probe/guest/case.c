/* SPDX-License-Identifier: MIT OR Apache-2.0 */
/*
 * A case: a record that is carried out again, with the outcomes that its accesses may have. Instead
 * of a record the guest writes a verdict, and ends with a status of its own.
 *
 * probe/casing.py lays the case out behind the steps of the record. What an access may return
 * depends on what those before it returned, so the outcomes are a tree: each node is an access
 * behind certain outcomes, and has an edge for each outcome that is allowed there. All places in it
 * are counted in bytes from its beginning.
 */
#include "probe.h"

#define CASE_MAGIC 0x4553414344494350u /* PCIDCASE */
enum { MOST_CHANGES = 16, OFFSET = 4095 };

struct change {
    uint64_t address, bits;
};
struct edge {
    uint64_t is_fault, value; /* a frame, or an error code */
    uint64_t next;            /* the node of the next access, or 0: none is laid out */
    uint64_t changes;         /* of entries' flags: those that have to be seen, in version 2 */
    struct change change[];
};
struct node {
    uint64_t asked, allowed;     /* texts: the access, and the outcomes that are allowed */
    uint64_t linear;             /* as the record has it */
    uint64_t is_judged, is_last; /* whether another outcome is a FAIL; whether no access follows */
    uint64_t edges; /* they stand behind the node, and have several lengths */
};
struct case_head {
    uint64_t magic, name, about, frames;
    uint64_t trees[3]; /* of a machine with PCIDs and INVPCID, with PCIDs alone, with neither */
    struct {
        uint64_t here, there; /* a frame, and which one of the record it stands for */
    } frame[];
};

static const struct case_head *head;
static const struct node *node; /* of the access that is carried out next */
static struct {
    struct change change[MOST_CHANGES];
    uint64_t count;
} seen;

static const void *at(uint64_t place)
{
    return (const uint8_t *)head + place;
}

/* What is behind the last step of a record, of which some bytes are left. */
void begin_case(const void *place, uint64_t left)
{
    head = place;
    if (left < sizeof *head || head->magic != CASE_MAGIC)
        stop("stopped: no case stands behind the record, bytes", left);
    node = at(head->trees[rules.pcide ? !rules.invpcid : 2]);
    tell_text("case: ");
    tell_text(at(head->name));
    tell_text(": ");
    tell_text(at(head->about));
    tell_text("\n");
}

/* A flag of an entry that the processor set for the access. */
void note_change(uint64_t address, uint64_t bits)
{
    const struct change change = {address, bits};

    if (seen.count == MOST_CHANGES)
        stop("stopped: more flags were set than are counted, at", address);
    seen.change[seen.count++] = change;
}

static uint64_t bits_of(const struct change *change, uint64_t count, uint64_t address)
{
    uint64_t bits = 0, k;

    for (k = 0; k < count; k++)
        bits |= change[k].address == address ? change[k].bits : 0;
    return bits;
}

/* Whether exactly these flags were set. */
static int has_changes(const struct edge *edge)
{
    uint64_t address, k;

    for (k = 0; k < edge->changes + seen.count; k++) {
        address = (k < edge->changes ? edge->change[k] : seen.change[k - edge->changes]).address;
        if (bits_of(edge->change, edge->changes, address) != bits_of(seen.change, seen.count, address))
            return 0;
    }
    return 1;
}

static const struct edge *edge_of(int is_fault, uint64_t value)
{
    const struct edge *edge = (const struct edge *)&node[1];
    uint64_t k;

    for (k = 0; k < node->edges; k++) {
        if (edge->is_fault == (uint64_t)is_fault && edge->value == value && has_changes(edge))
            return edge;
        edge = (const struct edge *)&edge->change[edge->changes];
    }
    return NULL;
}

/* A frame as the record has it, or the guest's own where that has no such frame. */
static uint64_t frame_of_record(uint64_t frame)
{
    uint64_t k;

    for (k = 0; k < head->frames; k++)
        if (head->frame[k].here == frame)
            return head->frame[k].there;
    return frame;
}

static void tell_outcome(int is_fault, uint64_t value)
{
    uint64_t k;

    tell_text(at(node->asked));
    tell_text(is_fault ? " gave fault " : " gave ");
    tell_number(is_fault ? value : frame_of_record(value) | (node->linear & OFFSET));
    for (k = 0; k < seen.count; k++) {
        tell_text(k == 0 ? ", setting flags " : ", ");
        tell_number(seen.change[k].bits);
        tell_text(" of [");
        tell_number(frame_of_record(seen.change[k].address & ~(uint64_t)OFFSET) |
                    (seen.change[k].address & OFFSET));
        tell_text("]");
    }
}

static void end_case(const char *verdict, enum exit_status status, int is_fault, uint64_t value,
                     const char *why)
{
    tell_text(verdict);
    tell_outcome(is_fault, value);
    tell_text(", allowed: ");
    tell_text(at(node->allowed));
    tell_text(why);
    tell_text("\n");
    shut_down_with(status);
}

/* What an access gave: a frame, or the code of a page fault. */
void judge(int is_fault, uint64_t value)
{
    const struct edge *const edge = edge_of(is_fault, value);

    if (edge == NULL && node->is_judged)
        end_case("FAIL: ", FAILED, is_fault, value, "");
    if (edge == NULL)
        end_case("SKIP: ", SKIPPED, is_fault, value,
                 "; only the last access is judged: with --each this would be a FAIL");
    if (node->is_last)
        end_case("PASS: ", PASSED, is_fault, value, "");
    if (edge->next == 0)
        end_case("SKIP: ", SKIPPED, is_fault, value,
                 "; what is allowed behind this outcome is not laid out");
    node = at(edge->next);
    seen.count = 0;
}

/* What the case takes lacks here. */
void skip_case(const char *why, uint64_t number)
{
    say(why, number);
    shut_down_with(SKIPPED);
}
