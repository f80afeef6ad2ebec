/* SPDX-License-Identifier: MIT OR Apache-2.0 */
/*
 * What a case for kvm-unit-tests uses of that tree, declared by us, so that it can be compiled and
 * run without the tree: stub.c carries it out in the probe's guest. In the tree these stand in
 * libcflat.h, processor.h, desc.h, vm.h, vmalloc.h, alloc_page.h and smp.h.
 */
#ifndef STUB_H
#define STUB_H

#include <stdbool.h>
#include <stddef.h>
#include <stdint.h>

#pragma GCC visibility push(hidden)

typedef uint8_t u8;
typedef uint16_t u16;
typedef uint32_t u32;
typedef uint64_t u64;
typedef unsigned long pteval_t;

#define ARRAY_SIZE(array) (sizeof(array) / sizeof((array)[0]))
#define xxstr(text) #text
#define xstr(text) xxstr(text)
#define PAGE_SIZE 4096
#define PT_ADDR_MASK 0xFFFFFFFFFF000ull

/* libcflat.h */
void report(bool pass, const char *form, ...) __attribute__((format(printf, 2, 3)));
void report_skip(const char *form, ...) __attribute__((format(printf, 1, 2)));
void report_prefix_push(const char *prefix);
int report_summary(void);
void *memset(void *to, int value, size_t count);
void *memcpy(void *to, const void *from, size_t count);

/* processor.h */
#define X86_CR0_WP (1ul << 16)
#define X86_CR0_AM (1ul << 18)
#define X86_CR4_PGE (1ul << 7)
#define X86_CR4_PCIDE (1ul << 17)
#define X86_CR4_SMEP (1ul << 20)
#define X86_CR4_SMAP (1ul << 21)
#define X86_EFLAGS_AC (1ul << 18)
#define MSR_EFER 0xC0000080u
#define EFER_NX (1ul << 11)
#define UD_VECTOR 6
#define PF_VECTOR 14
enum { X86_FEATURE_PCID, X86_FEATURE_INVPCID, X86_FEATURE_SMEP, X86_FEATURE_SMAP };
struct descriptor_table_ptr {
    u16 limit;
    unsigned long base;
} __attribute__((packed));
bool this_cpu_has(u64 feature);
int cpuid_maxphyaddr(void);
#define STUB_CONTROL_REGISTER(name)                                  \
    static inline unsigned long read_##name(void)                    \
    {                                                                \
        unsigned long value;                                         \
        __asm__ volatile("mov %%" #name ",%0" : "=r"(value));        \
        return value;                                                \
    }                                                                \
    static inline void write_##name(unsigned long value)             \
    {                                                                \
        __asm__ volatile("mov %0,%%" #name ::"r"(value) : "memory"); \
    }
STUB_CONTROL_REGISTER(cr0)
STUB_CONTROL_REGISTER(cr2)
STUB_CONTROL_REGISTER(cr3)
STUB_CONTROL_REGISTER(cr4)

static inline u64 rdmsr(u32 number)
{
    u32 low, high;

    __asm__ volatile("rdmsr" : "=a"(low), "=d"(high) : "c"(number));
    return (u64)high << 32 | low;
}

static inline void wrmsr(u32 number, u64 value)
{
    __asm__ volatile("wrmsr" ::"c"(number), "a"((u32)value), "d"((u32)(value >> 32)));
}

static inline void invlpg(volatile void *linear)
{
    __asm__ volatile("invlpg (%0)" ::"r"(linear) : "memory");
}

static inline void sgdt(struct descriptor_table_ptr *table)
{
    __asm__ volatile("sgdt %0" : "=m"(*table));
}

static inline u16 str(void)
{
    u16 selector;

    __asm__ volatile("str %0" : "=rm"(selector));
    return selector;
}

/* desc.h */
#define KERNEL_CS 0x08
#define KERNEL_DS 0x10
#define USER_DS 0x23
#define USER_CS 0x2b
#define FIRST_SPARE_SEL 0x40
struct ex_regs {
    unsigned long rax, rcx, rdx, rbx, dummy, rbp, rsi, rdi, r8, r9, r10, r11, r12, r13, r14, r15;
    unsigned long vector, error_code, rip, cs, rflags, rsp, ss;
};
typedef void (*handler)(struct ex_regs *regs);
handler handle_exception(u8 vector, handler fn);

/* vm.h, vmalloc.h, alloc_page.h */
void __setup_vm(void *opaque);
void *alloc_page(void);
void *alloc_pages(unsigned int order);
unsigned long virt_to_phys(const void *place);
void *phys_to_virt(unsigned long physical);

/* smp.h */
int cpu_count(void);
void on_cpu(int cpu, void (*function)(void *data), void *data);

int main(void);

#pragma GCC visibility pop

#endif
