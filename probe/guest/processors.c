/* SPDX-License-Identifier: MIT OR Apache-2.0 */
/* The processors: their descriptors, how they start, and the orders that they carry out, one at a
 * time. Processor 0 decides; the others wait for orders. */
#include "machine.h"
#include "probe.h"

enum {
    CODE = 0x08,
    DATA = 0x10,
    TASK = 0x30,
    LOCAL = 0x40, /* the table that implicit accesses read */
    START_ADDRESS = 0x8000,
    LOADER_START_PORT = 0xEB,
    LOADER_TURN_PORT = 0xED,
    LOADER_BACK_PORT = 0xEE,
    DELAY_PORT = 0x80,
    MOST_ROUNDS = 100000000 /* of waiting for another processor */
};
#define APIC 0xFEE00000u

struct area processors[MOST_PROCESSORS] __attribute__((aligned(16384), section(".areas")));
uint32_t count_of_processors;
static uint64_t gates[64] __attribute__((aligned(16)));

void lay_out_gates(void)
{
    unsigned k;

    for (k = 0; k < 32; k++) {
        gates[2 * k] = (handlers[k] & 0xFFFF) | CODE << 16 | 0x8E0000000000u |
                       (handlers[k] >> 16 & 0xFFFF) << 48;
        gates[2 * k + 1] = handlers[k] >> 32;
    }
}

void load_descriptors(struct processor *processor)
{
    struct {
        uint16_t limit;
        uint64_t base;
    } __attribute__((packed)) table;
    const uint64_t task = (uint64_t)processor->task;
    const uint64_t stack = (uint64_t)processor + RING_3_STACK;

    processor->descriptors[1] = 0x00209A0000000000u;
    processor->descriptors[2] = 0x00CF92000000FFFFu;
    processor->descriptors[4] = 0x00CFF2000000FFFFu; /* 0x23: data of ring 3 */
    processor->descriptors[5] = 0x0020FA0000000000u; /* 0x2B: code of ring 3 */
    processor->descriptors[6] = 0x0000890000000067u | (task & 0xFFFFFF) << 16 |
                                (task >> 24 & 0xFF) << 56;
    processor->descriptors[7] = task >> 32;
    processor->task[1] = (uint32_t)stack;
    processor->task[2] = (uint32_t)(stack >> 32);
    processor->task[25] = 104u << 16; /* no map of ports */
    table.limit = sizeof processor->descriptors - 1;
    table.base = (uint64_t)processor->descriptors;
    __asm__ volatile("lgdt %0" ::"m"(table));
    __asm__ volatile("mov %0,%%ds; mov %0,%%es; mov %0,%%ss" ::"r"(DATA));
    __asm__ volatile("mov %0,%%fs; mov %0,%%gs" ::"r"(0));
    __asm__ volatile("ltr %w0" ::"r"(TASK));
    table.limit = sizeof gates - 1;
    table.base = (uint64_t)gates;
    __asm__ volatile("lidt %0" ::"m"(table));
}

static void drop_everything(void)
{
    const uint64_t cr4 = read_cr4();

    write_cr4(cr4 ^ CR4_PGE);
    write_cr4(cr4);
}

static void rest(void)
{
    write_cr4(read_cr4() & ~(uint64_t)(CR4_PGE | CR4_PCIDE));
    write_cr3(physical_of(home_root));
    drop_everything();
}

/* The settings of a record, its CR3 and PGE, and caches that are empty. */
static void begin(uint64_t cr3, uint64_t pge)
{
    uint64_t cr4 = read_cr4() & ~(uint64_t)(CR4_SMEP | CR4_SMAP);

    write_msr(MSR_EFER, (read_msr(MSR_EFER) & ~(uint64_t)EFER_NXE) | (rules.nxe ? EFER_NXE : 0));
    write_cr0((read_cr0() & ~(uint64_t)(CR0_WP | CR0_AM)) | (rules.wp ? CR0_WP : 0));
    cr4 |= (rules.smep ? CR4_SMEP : 0) | (rules.smap ? CR4_SMAP : 0);
    write_cr4(cr4 | (rules.pcide ? CR4_PCIDE : 0));
    write_cr3(cr3);
    if (pge)
        write_cr4(read_cr4() | CR4_PGE);
    drop_everything();
}

void follow_access(struct processor *processor, const uint64_t operand[6])
{
    const uint64_t linear = operand[1];

    if (operand[5]) { /* a descriptor of the local table stands at the address */
        processor->descriptors[8] = 0x000082000000000Fu | (linear & 0xFFFFFF) << 16 |
                                    (linear >> 24 & 0xFF) << 56;
        processor->descriptors[9] = linear >> 32;
        __asm__ volatile("lldt %w0" ::"r"(LOCAL) : "memory");
    }
    carry_out(processor, operand[0], linear, operand[2], operand[3], operand[4]);
    if (operand[5])
        __asm__ volatile("lldt %w0" ::"r"(0));
}

static void follow(struct processor *processor)
{
    const uint64_t *const operand = processor->order.operand;
    const uint64_t cr4 = read_cr4() & ~(uint64_t)CR4_PGE;

    switch (processor->order.work) {
    case REST:
        rest();
        break;
    case BEGIN:
        begin(operand[0], operand[1]);
        break;
    case ACCESS:
        follow_access(processor, operand);
        break;
    case MOV_CR3:
        write_cr3(operand[0]);
        processor->rax = read_cr3();
        break;
    case INVLPG:
        invlpg(operand[0]);
        break;
    case INVPCID:
        invpcid(operand[0], operand[1], operand[2]);
        break;
    case SET_PGE:
        write_cr4(cr4 | (operand[0] ? CR4_PGE : 0));
        break;
    case STORE:
        *word_at(operand[0]) = operand[1];
        break;
    case STREAM:
        follow_stream();
        break;
    case CALL:
        ((void (*)(void *))operand[0])((void *)operand[1]);
        break;
    }
}

static void wait_for(struct processor *processor, uint32_t number)
{
    uint64_t round;

    for (round = 0; processor->waits; round++) {
        pause();
        if (round > MOST_ROUNDS)
            stop("stopped: no answer from processor", number);
    }
}

struct processor *carry_out_by(uint32_t number, enum work work, uint64_t a, uint64_t b, uint64_t c,
                               uint64_t d, uint64_t e, uint64_t f)
{
    struct processor *const processor = &processors[number].processor;
    const struct order order = {work, {a, b, c, d, e, f}};

    processor->order = order;
    if (number == 0) {
        follow(processor);
        return processor;
    }
    processor->waits = 1;
    if (settings.ways & LOADER_TURNS)
        out_byte(LOADER_TURN_PORT, (uint8_t)number);
    wait_for(processor, number);
    return processor;
}

/* Has another processor go on by itself. */
void send_off(uint32_t number)
{
    const struct order order = {STREAM, {0, 0, 0, 0, 0, 0}};

    processors[number].processor.order = order;
    processors[number].processor.waits = 1;
}

void await(uint32_t number)
{
    wait_for(&processors[number].processor, number);
}

static void give_turn_back(void)
{
    if (settings.ways & LOADER_TURNS)
        out_byte(LOADER_BACK_PORT, 0);
}

void other_starts(uint64_t number)
{
    struct processor *const processor = &processors[number].processor;

    write_cr3(physical_of(home_root));
    load_descriptors(processor);
    processor->waits = 0;
    for (;;) {
        give_turn_back();
        while (!processor->waits)
            pause();
        follow(processor);
        processor->waits = 0;
    }
}

static void wait_a_while(void)
{
    unsigned k;

    for (k = 0; k < 20000; k++)
        out_byte(DELAY_PORT, 0);
}

/* INIT and SIPI to all others. Each takes the next number. */
static void start_bare_processors(void)
{
    volatile uint32_t *const apic = (volatile uint32_t *)word_at(APIC);
    volatile uint8_t *const place = (volatile uint8_t *)word_at(START_ADDRESS);
    unsigned k;

    for (k = 0; &start_begin[k] < start_end; k++)
        place[k] = start_begin[k];
    apic[0x300 / 4] = 0xC4500;
    wait_a_while();
    apic[0x300 / 4] = 0xC4600 | START_ADDRESS >> 12;
    for (k = 0; k < 100 && arrivals < settings.processors; k++)
        wait_a_while();
}

void start_processors(void)
{
    uint32_t number;

    count_of_processors = (uint32_t)settings.processors;
    for (number = 1; number < count_of_processors; number++)
        processors[number].processor.waits = 1;
    if (!(settings.ways & LOADER_STARTS) && count_of_processors > 1)
        start_bare_processors();
    for (number = 1; number < count_of_processors; number++) {
        if (settings.ways & LOADER_STARTS)
            out_byte(LOADER_START_PORT, (uint8_t)number);
        if (settings.ways & LOADER_TURNS)
            out_byte(LOADER_TURN_PORT, (uint8_t)number);
        wait_for(&processors[number].processor, number);
    }
}
