/* SPDX-License-Identifier: MIT OR Apache-2.0 */
/*
 * All processors act at once: each carries out a random stream of its own. They run freely, or in
 * bursts: each chooses so many events, all meet, and then carry them out. The settings' focus has
 * streams of few words in their place (focus.c).
 */
#include "machine.h"
#include "probe.h"

enum { FEW_PAGES = 5, MOST_PLANNED = 32 };
enum { NO_INVALIDATION, INVALIDATE_NEXT, ACCESS_NEXT };

/* What all have in common. */
static uint64_t share, upper_share, events_each;
static volatile uint64_t arrived __attribute__((aligned(64)));
static volatile uint64_t finished; /* processors that have done their events */

struct planned {
    enum work work;
    uint32_t frame;
    uint64_t a, b, c;
    struct access access;
};

/* What each has for itself. */
static struct plans {
    uint32_t planned;
    int follows_up;
    uint64_t again, cr3; /* CR3 as it will be behind what is planned */
    struct planned plan[MOST_PLANNED];
} plans[MOST_PROCESSORS] __attribute__((aligned(64)));

static struct plans *own(void)
{
    return &plans[own_number()];
}

static struct planned *plan(enum work work, uint64_t a, uint64_t b, uint64_t c)
{
    struct planned *const planned = &own()->plan[own()->planned++];

    planned->work = work;
    planned->a = a;
    planned->b = b;
    planned->c = c;
    return planned;
}

/* Half of the words are written by one processor alone. */
static int may_be_written(uint32_t frame, uint64_t index)
{
    const uint64_t owner = (frame * 7 + index * 3) % (2 * count_of_processors);

    return owner >= count_of_processors || owner == own_number();
}

static void plan_write(void)
{
    static const uint8_t shares[2][3] = {{60, 82, 94}, {25, 65, 90}};
    const uint8_t *const to = shares[upper_share];
    const uint64_t chance = below(100), page = likely_page();
    const unsigned level = chance < to[0] ? 1 : chance < to[1] ? 2 : chance < to[2] ? 3 : 4;
    unsigned at = level;
    uint32_t frame;
    uint64_t index;

    if (percent(90)) {
        at = find_word(own()->cr3, page, level, &frame, &index);
    } else {
        frame = first_of_level[level] + (uint32_t)below(count_of_level[level]);
        index = indices[level][below(count_of_indices[level])];
    }
    if (!may_be_written(frame, index))
        return;
    plan(STORE, index, random_entry(at, percent(at == level ? 65 : 80)), 0)->frame = frame;
    if (percent(35)) {
        own()->follows_up = INVALIDATE_NEXT;
        own()->again = page;
    }
}

static void plan_access(int is_again)
{
    struct access access = random_access();

    if (is_again)
        access.page = own()->again;
    if (!is_kind_allowed(&access))
        return;
    note_page(access.page);
    plan(ACCESS, 0, 0, 0)->access = access;
}

static void plan_load(void)
{
    const uint64_t operand = random_cr3(own()->cr3);

    own()->cr3 = operand & ~(1ull << 63);
    plan(MOV_CR3, operand, 0, 0);
}

static void plan_invalidation(void)
{
    if (percent(65)) {
        own()->again = likely_page();
        plan(INVLPG, own()->again | below(4096), 0, 0);
        own()->follows_up = percent(70) ? ACCESS_NEXT : NO_INVALIDATION;
    } else {
        plan(INVLPG, address_to_invalidate(), 0, 0);
    }
}

static void plan_invalidation_of_pcid(void)
{
    const struct invalidation chosen = random_invalidation(own()->cr3);

    plan(INVPCID, chosen.type, chosen.pcid, chosen.linear);
}

static void plan_event(void)
{
    static const uint8_t pages_share[] = {12, 8, 5}, cr3_share[] = {6, 4, 2};
    const uint64_t pages_to = 26 + pages_share[share], pcids_to = pages_to + pages_share[share];
    const uint64_t cr3_to = pcids_to + cr3_share[share], pge_to = cr3_to + 1;
    const uint64_t chance = below(100);
    const int follows_up = own()->follows_up;

    own()->follows_up = follows_up == INVALIDATE_NEXT ? ACCESS_NEXT : NO_INVALIDATION;
    if (follows_up == INVALIDATE_NEXT)
        plan(INVLPG, own()->again | below(4096), 0, 0);
    else if (follows_up == ACCESS_NEXT)
        plan_access(1);
    else if (chance < 26)
        plan_write();
    else if (chance < pages_to || (chance < pcids_to && !rules.invpcid))
        plan_invalidation();
    else if (chance < pcids_to)
        plan_invalidation_of_pcid();
    else if (chance < cr3_to)
        plan_load();
    else if (chance < pge_to && allows(GLOBAL_PAGES))
        plan(SET_PGE, (uint64_t)percent(60), 0, 0);
    else
        plan_access(0);
}

static void carry_out_plan(void)
{
    const struct planned *planned = own()->plan, *const end = planned + own()->planned;

    for (; planned < end; planned++) {
        if (planned->work == STORE)
            store_at_once(planned->frame, planned->a, planned->b);
        else if (planned->work == INVLPG)
            invalidate_page_at_once(planned->a);
        else if (planned->work == INVPCID)
            invalidate_pcid_at_once(planned->a, planned->b, planned->c);
        else if (planned->work == MOV_CR3)
            load_cr3_at_once(planned->a);
        else if (planned->work == SET_PGE)
            set_pge_at_once(processors[own_number()].processor.pge ^ planned->a);
        else if (access_at_once(&planned->access))
            note_answered(&planned->access);
    }
    own()->planned = 0;
}

static void count_one(volatile uint64_t *counter)
{
    uint64_t one = 1;

    __asm__ volatile("lock xaddq %0,%1" : "+r"(one), "+m"(*counter)::"memory", "cc");
}

int others_are_done(void)
{
    return finished + 1 >= count_of_processors;
}

/* Until so many have come to a meeting, those of earlier ones counted in. */
static void meet(uint64_t all)
{
    count_one(&arrived);
    while (arrived < all)
        pause();
}

static void run_freely(void)
{
    const uint32_t number = own_number();
    const uint64_t end = count_of_logged(number) + events_each;

    while (count_of_logged(number) < end && has_room(number)) {
        plan_event();
        carry_out_plan();
    }
}

/* Processor 0 goes on for as long as the others do. */
static void run_focused(void)
{
    const uint32_t number = own_number();
    const uint64_t end = count_of_logged(number) + events_each;

    while (has_room(number) && (number == 0 && count_of_processors > 1
                                    ? !others_are_done()
                                    : count_of_logged(number) < end))
        focus_event(&own()->again, &own()->follows_up);
    count_one(&finished);
}

static void run_in_bursts(void)
{
    uint64_t round;

    for (round = 2; round < 2 + events_each / settings.burst; round++) {
        while (own()->planned < settings.burst)
            plan_event();
        meet(round * count_of_processors);
        if (has_room(own_number()))
            carry_out_plan();
        own()->planned = 0;
    }
}

void follow_stream(void)
{
    own()->cr3 = processors[own_number()].processor.cr3;
    meet(count_of_processors);
    if (settings.focus != 0)
        run_focused();
    else if (settings.burst == 0)
        run_freely();
    else
        run_in_bursts();
}

static void choose(uint64_t seed)
{
    choose_rules(seed);
    is_self_mapped = 0;
    share = seed % 3;
    upper_share = seed / 6 % 2;
    choose_pages(seed / 3 % 2 == 0 ? PAGES : FEW_PAGES);
}

/* The words of all tables, by processor 0, before the others act. */
static void write_tables(void)
{
    unsigned level, frame, k;

    if (settings.focus != 0) {
        write_focus_tables();
        return;
    }
    for (level = 4; level > 0; level--)
        for (frame = 0; frame < count_of_level[level]; frame++)
            for (k = 0; k < count_of_indices[level]; k++)
                store_at_once(first_of_level[level] + frame, indices[level][k],
                              random_entry(level, percent(85)));
}

static void begin_streams(uint64_t seed)
{
    struct processor *processor;
    uint32_t k;

    for (k = 0; k < count_of_processors; k++) {
        processor = &processors[k].processor;
        processor->cr3 = POOL_FRAME(0) | some_pcid();
        processor->pge = allows(GLOBAL_PAGES) && settings.focus == 0 && percent(75);
        plans[k].planned = 0;
        plans[k].follows_up = NO_INVALIDATION;
        plans[k].again = 0;
        seed_random_of(k, seed);
        begin_log(k);
    }
    for (k = 0; k < ROOTS; k++) {
        store_at_once(k, MEMORY_SLOT, home_root[MEMORY_SLOT]);
        store_at_once(k, RING_3_SLOT, home_root[RING_3_SLOT]);
    }
}

void run_at_once(uint64_t seed)
{
    uint32_t k;

    if (settings.version < 1 || settings.version > 2 || settings.burst > MOST_PLANNED - 4 ||
        settings.focus > FOCUSES)
        stop("stopped: settings of a run at once", settings.focus);
    seed_random(seed);
    counter_page[0] = 1;
    arrived = finished = 0;
    rest_all();
    choose(seed);
    choose_slot();
    begin_frames();
    begin_streams(seed);
    write_tables();
    begin_all();
    events_each = settings.events / count_of_processors;
    for (k = 1; k < count_of_processors; k++)
        send_off(k);
    follow_stream();
    for (k = 1; k < count_of_processors; k++)
        await(k);
    hand_out_logs(1);
    hand_over();
}
