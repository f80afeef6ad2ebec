/* SPDX-License-Identifier: MIT OR Apache-2.0 */
/*
 * Runs a case for kvm-unit-tests in the probe's guest: what it uses of that tree, by what the guest
 * has. It stands in the place of guest/replay.c.
 */
#include <stdarg.h>
#include <stdbool.h>

#include "../guest/machine.h"
#include "../guest/probe.h"

enum { VECTORS = 32, PAGES_ADDRESS = 0x1000000, PIECES_ADDRESS = 0x2000000, PIECE = 0x200000 };

struct table {
    uint16_t limit;
    uint64_t base;
} __attribute__((packed));
typedef void (*handler)(void *registers);

static uint64_t next_page = PAGES_ADDRESS, next_piece = PIECES_ADDRESS;
static int passed, failed, skipped;
static const char *prefix_of_lines = "";
handler stub_handlers[VECTORS] __attribute__((visibility("hidden")));
extern uint8_t stub_vector_6[], stub_vector_14[];
int main(void);

/* The frames of exceptions, as struct ex_regs has them. */
__asm__(".text\n"
        "stub_vector_6: push $0\n push $6\n jmp stub_handle\n"
        "stub_vector_14: push $14\n"
        "stub_handle:\n"
        " push %r15\n push %r14\n push %r13\n push %r12\n push %r11\n push %r10\n push %r9\n push %r8\n"
        " push %rdi\n push %rsi\n push %rbp\n push %rax\n push %rbx\n push %rdx\n push %rcx\n push %rax\n"
        " cld\n mov %rsp,%rdi\n mov 128(%rsp),%rax\n lea stub_handlers(%rip),%rcx\n"
        " mov %rsp,%rbp\n and $-16,%rsp\n call *(%rcx,%rax,8)\n mov %rbp,%rsp\n"
        " pop %rax\n pop %rcx\n pop %rdx\n pop %rbx\n add $8,%rsp\n pop %rbp\n pop %rsi\n pop %rdi\n"
        " pop %r8\n pop %r9\n pop %r10\n pop %r11\n pop %r12\n pop %r13\n pop %r14\n pop %r15\n"
        " add $16,%rsp\n iretq\n");

handler handle_exception(uint8_t vector, handler chosen)
{
    const handler before = stub_handlers[vector];
    const uint64_t place = (uint64_t)(vector == PAGE_FAULT ? stub_vector_14 : stub_vector_6);
    struct table table;
    uint64_t *gate;

    __asm__ volatile("sidt %0" : "=m"(table));
    gate = (uint64_t *)table.base + 2 * vector;
    gate[0] = (gate[0] & 0x0000FFFFFFFF0000u) | (place & 0xFFFF) | (place >> 16 & 0xFFFF) << 48;
    gate[1] = place >> 32;
    stub_handlers[vector] = chosen;
    return before;
}

/* ---- Reports */

static void put_number(unsigned long number, unsigned base)
{
    char text[24];
    int at = 23;

    text[at] = 0;
    do {
        text[--at] = "0123456789abcdef"[number % base];
        number /= base;
    } while (number > 0);
    tell_text(&text[at]);
}

/* %s, %d and %lx alone. */
static void put_form(const char *form, va_list words)
{
    char letter[2] = {0, 0};

    for (; *form != 0; form++) {
        letter[0] = *form;
        if (*form != '%') {
            tell_text(letter);
        } else if (*++form == 's') {
            tell_text(va_arg(words, const char *));
        } else if (*form == 'd') {
            put_number((unsigned long)va_arg(words, int), 10);
        } else {
            form++; /* %lx */
            put_number(va_arg(words, unsigned long), 16);
        }
    }
}

static void put_line(const char *verdict, const char *form, va_list words)
{
    tell_text(verdict);
    tell_text(": ");
    tell_text(prefix_of_lines);
    tell_text(": ");
    put_form(form, words);
    tell_text("\n");
}

void report(bool pass, const char *form, ...)
{
    va_list words;

    va_start(words, form);
    put_line(pass ? "PASS" : "FAIL", form, words);
    va_end(words);
    passed += pass;
    failed += !pass;
}

void report_skip(const char *form, ...)
{
    va_list words;

    va_start(words, form);
    put_line("SKIP", form, words);
    va_end(words);
    skipped++;
}

void report_prefix_push(const char *prefix)
{
    prefix_of_lines = prefix;
}

int report_summary(void)
{
    tell_text("SUMMARY: ");
    put_number((unsigned long)(passed + failed + skipped), 10);
    tell_text(" tests, ");
    put_number((unsigned long)failed, 10);
    tell_text(" unexpected failures, ");
    put_number((unsigned long)skipped, 10);
    tell_text(" skipped\n");
    return failed > 0 ? FAILED : passed > 0 ? PASSED : SKIPPED;
}

/* ---- The machine */

bool this_cpu_has(uint64_t feature)
{
    const bool has[] = {machine.pcid, machine.invpcid, machine.smep, machine.smap};

    return has[feature];
}

int cpuid_maxphyaddr(void)
{
    return (int)machine.m;
}

/* The tree's own tables have slot 0 of the root, so a test has to use others. */
void __setup_vm(void *opaque)
{
    (void)opaque;
    home_root[0] = home_root[MEMORY_SLOT];
}

void *alloc_page(void)
{
    next_page += 4096;
    return (void *)word_at(next_page - 4096);
}

void *alloc_pages(unsigned order)
{
    if (order != 9)
        stop("stopped: pages of the order", order);
    next_piece += PIECE;
    return (void *)word_at(next_piece - PIECE);
}

unsigned long virt_to_phys(const void *place)
{
    return physical_of(place);
}

void *phys_to_virt(unsigned long physical)
{
    return (void *)word_at(physical);
}

int cpu_count(void)
{
    return (int)count_of_processors;
}

void on_cpu(int cpu, void (*function)(void *data), void *data)
{
    carry_out_by((uint32_t)cpu, CALL, (uint64_t)function, (uint64_t)data, 0, 0, 0, 0);
}

void *memset(void *to, int value, size_t count)
{
    volatile uint8_t *at = to;

    while (count-- > 0)
        *at++ = (uint8_t)value;
    return to;
}

void *memcpy(void *to, const void *from, size_t count)
{
    volatile uint8_t *at = to;
    const uint8_t *source = from;

    while (count-- > 0)
        *at++ = *source++;
    return to;
}

/* What main.c calls for a record that is carried out again. */
void run_replay(uint64_t number)
{
    (void)number;
    shut_down_with((enum exit_status)main());
}
