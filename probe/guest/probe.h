/* SPDX-License-Identifier: MIT OR Apache-2.0 */
/*
 * The guest: it carries out paging operations by a seed, and writes the record of what it saw.
 *
 * Physical memory, of which the first 128 MB of the first two GBs are used:
 *     0x2000     the boot tables           0x8000      the start of other processors
 *     0x10000    the guest                 0x400000    the pool of table frames
 *     0x600000   what is kept of tables  0x700000   a record that is carried out again
 *     0x800000   the log          0x1000000  the logs of processors that act at once
 * and the frames of pages.c, which tested addresses lead to.
 *
 * Linear memory: slot 256 of each root maps physical memory for ring 0, slot 257 the stubs of
 * ring 3. No tested address lies in these.
 */
#ifndef PROBE_H
#define PROBE_H

#include <stddef.h>
#include <stdint.h>

#include "../../emit/pcid_record.h"

#pragma GCC visibility push(hidden) /* one image: no table of addresses */

#define MEMORY 0xFFFF800000000000u
#define RING_3 0xFFFF808000000000u
enum { MEMORY_SLOT = 256, RING_3_SLOT = 257 };

/* Filled in by who loads the guest, at physical address 0x10010 (entry.s). `left_out` and `ways` have a bit
 * for each kind and way (below), `burst` is how many events a burst has, `focus` 1 to 5 in the order of
 * docs/PROBE.md, "Processors at once", and the last two say where the log is and how long. */
struct settings {
    uint64_t magic, seed, seeds, events, processors, version, left_out, ways, script, burst, focus;
    volatile uint64_t log_address, log_length;
};
extern struct settings settings;

/* Kinds that settings.left_out may leave out. */
enum {
    RESERVED_BITS = 1 << 0,   /* entries with reserved bits */
    LARGE_PAGES = 1 << 1,
    GLOBAL_PAGES = 1 << 2,
    USER = 1 << 3,            /* accesses by ring 3 */
    WRITES = 1 << 4,          /* accesses that write */
    FETCHES = 1 << 5,
    IMPLICIT = 1 << 6,        /* implicit accesses */
    IMPLICIT_AC = 1 << 7,     /* those with EFLAGS.AC=1 */
    SELF_MAPS = 1 << 8,       /* a frame as table of several levels and as data */
    PCIDS = 1 << 9,           /* CR4.PCIDE=0 */
    BARE_FAULTS = 1 << 10,    /* faults with no INVLPG behind them */
    CLEAR_FLAG_FAULTS = 1 << 11 /* faults whose walk meets A=0 */
};

/* Ways: of the log, of the start of other processors, of turns; whether records are carried out
 * again (replay.c), whose numbers then stand in the place of seeds; whether all processors act at
 * once (streams.c); whether what is answered is judged, instead of recorded (case.c). */
enum {
    DOORBELL = 1 << 0,      /* the log stays in memory, and is handed over at port 0xEA */
    SERIAL = 1 << 1,        /* the record goes to the serial line */
    LOADER_STARTS = 1 << 2, /* the loader starts the processor whose number goes to port 0xEB, in RDI */
    LOADER_TURNS = 1 << 3,  /* port 0xED runs the named processor until it writes to port 0xEE */
    REPLAY = 1 << 4,        /* of what probe/replay.py placed at 0x700000 */
    AT_ONCE = 1 << 5,
    CASE = 1 << 6           /* of what probe/casing.py placed behind a replay */
};

/* What the machine offers. */
struct machine {
    uint32_t m; /* MAXPHYADDR */
    int pcid, invpcid, smep, smap, no_execute, gigabyte_pages;
};
extern struct machine machine;

/* The settings of the record at hand. */
struct rules {
    int wp, nxe, smep, smap, pcide, invpcid;
};
extern struct rules rules;

enum { MOST_PROCESSORS = 8, AREA = 16384, RING_3_STACK = 8192 };

enum work { REST, BEGIN, ACCESS, MOV_CR3, INVLPG, INVPCID, SET_PGE, STORE, STREAM, CALL };
struct order {
    enum work work;
    uint64_t operand[6];
};

/* A processor: entry.s knows the first ten fields. Its area holds its stacks too. */
struct processor {
    uint64_t saved_stack, vector, error, fault_address, rax, rip, flags;
    uint64_t begin, end; /* the stamps of an access */
    uint64_t counter;    /* where its code finds the counter, or 0 */
    volatile uint64_t waits; /* for the order to be carried out */
    struct order order;
    uint64_t cr3, pge;       /* as the record has them; cr3 without bit 63 */
    uint64_t descriptors[12];
    uint32_t task[26];
};
struct area {
    struct processor processor;
    uint8_t stacks[AREA - sizeof(struct processor)];
};
extern struct area processors[MOST_PROCESSORS];
extern uint32_t count_of_processors;
/* The number of the processor that runs this: its stacks lie in its area. */
static inline uint32_t own_number(void)
{
    uint64_t stack;

    __asm__ volatile("mov %%rsp,%0" : "=r"(stack));
    return (uint32_t)((stack - (uint64_t)processors) / AREA);
}

/* entry.s */
extern const uint64_t handlers[32];
extern uint8_t stubs_begin[], stub_read[], stub_write[], stub_implicit[], stubs_end[];
extern uint8_t stamped_read[], stamped_write[], stamped_fetch[], stamped_implicit[];
extern uint8_t start_begin[], start_end[];
extern volatile uint64_t arrivals;
void carry_out(struct processor *processor, uint64_t code, uint64_t linear, uint64_t value,
               uint64_t flags, uint64_t is_user);

/* output.c */
void begin_output(void);
int put(void *context, const uint8_t *bytes, size_t count);
void hand_over(void); /* the log, where it is kept in memory */
void say(const char *text, uint64_t number);
void stop(const char *why, uint64_t number); /* ends the record, says why, and shuts down */
void tell_text(const char *text); /* of a case's verdict */
void tell_number(uint64_t number);
/* As kvm-unit-tests has them. QEMU ends with twice the status, and one more. */
enum exit_status { PASSED = 0, FAILED = 1, SKIPPED = 77, STOPPED = 127 };
void shut_down(void);
void shut_down_with(enum exit_status status);
void stray(uint64_t vector, uint64_t error, uint64_t rip, uint64_t address);

/* main.c */
void first_starts(void);

/* processors.c */
void lay_out_gates(void);
void load_descriptors(struct processor *processor);
void start_processors(void);
void other_starts(uint64_t number);
struct processor *carry_out_by(uint32_t number, enum work work, uint64_t a, uint64_t b, uint64_t c,
                               uint64_t d, uint64_t e, uint64_t f);
void send_off(uint32_t number); /* on its stream: see await */
void await(uint32_t number);
void follow_access(struct processor *processor, const uint64_t operand[6]);

/* random.c: a sequence for each processor */
void seed_random(uint64_t seed);
void seed_random_of(uint32_t number, uint64_t seed);
uint64_t random_bits(void);
uint64_t below(uint64_t count);
int percent(uint64_t chance);

/* pages.c */
enum { ROOTS = 3, POOL = 16, MOST_TABLES = 96, MOST_FRAMES = 256, SLOT = 32 };
#define FAR __attribute__((section(".far"))) /* at 0x600000: cleared by who uses it */
#define POOL_ADDRESS 0x400000u
#define POOL_FRAME(number) (POOL_ADDRESS + 4096 * (uint64_t)(number))
struct data_frames {
    uint64_t address[MOST_FRAMES];
    uint32_t count, wanted; /* the first `wanted` are mapped on purpose */
};
extern struct data_frames frames;
extern uint32_t count_of_tables;        /* of the pool: more than POOL in a replay alone */
extern uint64_t held[MOST_TABLES][512]; /* the pool's words as the record has them */
extern uint64_t home_root[512];
#define COUNTER_OF_RING_3 (RING_3 + 4096)
extern volatile uint64_t counter_page[512]; /* the first word counts stamps */
static inline volatile uint64_t *word_at(uint64_t physical)
{
    return (volatile uint64_t *)(MEMORY + physical);
}
static inline uint64_t physical_of(const void *place)
{
    return (uint64_t)(uintptr_t)place - MEMORY;
}
void lay_out_home(void);
void lay_out_frames(void);
void choose_slot(void);
void set_slot(uint64_t number);
void begin_frames(void);
uint64_t slot_offset(void);
uint64_t slot_word(uint64_t slot, unsigned number);
int find_written(uint64_t value, uint64_t offset, uint64_t *physical);

/* entries.c */
extern const uint16_t indices[5][6];
extern const uint8_t count_of_indices[5], first_of_level[5], count_of_level[5];
enum entry_kind { ABSENT, RESERVED, TABLE, LEAF };
enum entry_kind kind_of(unsigned level, uint64_t entry);
uint64_t canonical(uint64_t address);
uint64_t index_of(uint64_t linear, unsigned level);
unsigned level_of_frame(uint32_t frame);
uint64_t random_entry(unsigned level, int is_sound);
unsigned find_word(uint64_t cr3, uint64_t linear, unsigned level, uint32_t *frame,
                   uint64_t *index);
int faults_at_clear_flag(uint64_t cr3, uint64_t linear, uint32_t flags);

/* events.c */
extern struct pcid_record record;
extern uint32_t acting; /* the processor of the next event */
extern int is_self_mapped;
int allows(uint64_t kind);
void clear_words(void);
void begin_words(void);
int next_changed(uint32_t *at, uint32_t *frame, uint64_t *index);
void taken(enum pcid_record_status status);
void write_word(uint32_t frame, uint64_t index, uint64_t value);
void load_cr3(uint64_t operand);
void invalidate_page(uint64_t linear);
void invalidate_pcid(uint64_t type, uint64_t pcid, uint64_t linear);
void set_pge(uint64_t pge);

/* access.c */
enum operation { READ, WRITE, FETCH, LOAD_LIMIT };
struct access {
    enum operation operation;
    int is_user, ac;
    uint64_t page;
};
/* Carries it out and records it. Answers whether it was answered. */
int access_page(const struct access *access);
void visit_ring_3(void);
uint32_t flags_of(const struct access *access);
uint64_t linear_of(const struct access *access);
uint64_t value_of(const struct access *access);
uint64_t place_of_stub(const uint8_t *stub, int is_user);
uint64_t answer_of(const struct access *access, const struct processor *processor,
                   uint64_t value);
void stop_by_vector(const struct processor *processor, uint64_t linear);

/* choices.c: what random runs choose from */
enum { PAGES = 26 };
struct invalidation {
    uint64_t type, pcid, linear;
};
void choose_pages(uint64_t count);
uint64_t some_pcid(void);
uint64_t likely_page(void);
uint64_t address_to_invalidate(void);
uint64_t random_cr3(uint64_t cr3); /* an operand of MOV to CR3, by what CR3 has */
struct invalidation random_invalidation(uint64_t cr3); /* of INVPCID */
struct access random_access(void);
int is_kind_allowed(const struct access *access); /* by the kinds that are left out */
void note_page(uint64_t page);
void note_answered(const struct access *access);

/* scenario.c, directed.c and replay.c */
void rest_all(void);
void begin_header(void);
void begin_all(void);
void begin_record(uint64_t seed);
void run_replay(uint64_t number);

/* case.c */
static inline int is_case(void)
{
    return (settings.ways & CASE) != 0;
}
void begin_case(const void *place, uint64_t left);
void note_change(uint64_t address, uint64_t bits);
void judge(int is_fault, uint64_t value);
void skip_case(const char *why, uint64_t number);
void choose_rules(uint64_t seed);

/* logs.c: a log for each processor that acts at once */
static inline uint64_t stamp(void)
{
    uint64_t value = 1;

    __asm__ volatile("lock xaddq %0,%1" : "+r"(value), "+m"(counter_page[0])::"memory", "cc");
    return value;
}
void begin_log(uint32_t number);
uint64_t count_of_logged(uint32_t number);
int has_room(uint32_t number);
void log_event(uint8_t tag, uint64_t begin, uint64_t end);
void log_field(uint64_t value, unsigned bytes);
void log_end(void); /* the event is whole */
void hand_out_logs(int are_whole);

/* at_once.c: events of the processor that runs this, and their log */
void store_at_once(uint32_t frame, uint64_t index, uint64_t value);
void load_cr3_at_once(uint64_t operand);
void invalidate_page_at_once(uint64_t linear);
void invalidate_pcid_at_once(uint64_t type, uint64_t pcid, uint64_t linear);
void set_pge_at_once(uint64_t pge);
int access_at_once(const struct access *access);
int acts_at_once(void);
uint64_t word_now(uint32_t frame, uint64_t index); /* of the pool: as recorded, or as it is */

/* streams.c and focus.c */
enum { FOCUSES = 5 };
int others_are_done(void);
void run_at_once(uint64_t seed);
void follow_stream(void);
void write_focus_tables(void);
void focus_event(uint64_t *again, int *follows_up);
void run_random(uint64_t seed);
void run_script(uint64_t number);

#pragma GCC visibility pop

#endif
