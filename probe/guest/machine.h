/* SPDX-License-Identifier: MIT OR Apache-2.0 */
/* Instructions that C has no words for. */
#ifndef MACHINE_H
#define MACHINE_H

#include <stdint.h>

#define PROBE_CONTROL_REGISTER(name)                                 \
    static inline uint64_t read_##name(void)                         \
    {                                                                \
        uint64_t value;                                              \
        __asm__ volatile("mov %%" #name ",%0" : "=r"(value));        \
        return value;                                                \
    }                                                                \
    static inline void write_##name(uint64_t value)                  \
    {                                                                \
        __asm__ volatile("mov %0,%%" #name ::"r"(value) : "memory"); \
    }

PROBE_CONTROL_REGISTER(cr0)
PROBE_CONTROL_REGISTER(cr3)
PROBE_CONTROL_REGISTER(cr4)

enum { CR0_WP = 1 << 16, CR0_AM = 1 << 18 };
enum {
    CR4_PAE = 1 << 5,
    CR4_PGE = 1 << 7,
    CR4_PCIDE = 1 << 17,
    CR4_SMEP = 1 << 20,
    CR4_SMAP = 1 << 21
};
#define MSR_EFER 0xC0000080u
enum { EFER_NXE = 1 << 11 };
#define FLAGS_AC (1u << 18)
enum { ZERO_FLAG = 1 << 6, FLAGS_AT_REST = 2 };
enum { INVALID_OPCODE = 6, PAGE_FAULT = 14 }; /* vectors */

static inline uint64_t read_msr(uint32_t number)
{
    uint32_t low, high;

    __asm__ volatile("rdmsr" : "=a"(low), "=d"(high) : "c"(number));
    return (uint64_t)high << 32 | low;
}

static inline void write_msr(uint32_t number, uint64_t value)
{
    __asm__ volatile("wrmsr" ::"c"(number), "a"((uint32_t)value), "d"((uint32_t)(value >> 32)));
}

static inline void invlpg(uint64_t linear)
{
    __asm__ volatile("invlpg (%0)" ::"r"(linear) : "memory");
}

static inline void invpcid(uint64_t type, uint64_t pcid, uint64_t linear)
{
    const struct {
        uint64_t pcid, linear;
    } descriptor = {pcid, linear};

    __asm__ volatile("invpcid %0,%1" ::"m"(descriptor), "r"(type) : "memory");
}

struct cpuid {
    uint32_t eax, ebx, ecx, edx;
};

static inline struct cpuid cpuid(uint32_t leaf)
{
    struct cpuid said;

    __asm__ volatile("cpuid"
                     : "=a"(said.eax), "=b"(said.ebx), "=c"(said.ecx), "=d"(said.edx)
                     : "a"(leaf), "c"(0));
    return said;
}

static inline void out_byte(uint16_t port, uint8_t value)
{
    __asm__ volatile("outb %0,%1" ::"a"(value), "Nd"(port) : "memory");
}

static inline uint8_t in_byte(uint16_t port)
{
    uint8_t value;

    __asm__ volatile("inb %1,%0" : "=a"(value) : "Nd"(port));
    return value;
}

static inline void out_bytes(uint16_t port, const uint8_t *bytes, uint64_t count)
{
    __asm__ volatile("rep outsb" : "+S"(bytes), "+c"(count) : "d"(port) : "memory");
}

static inline void pause(void)
{
    __asm__ volatile("pause" ::: "memory");
}

#endif
