/* SPDX-License-Identifier: MIT OR Apache-2.0 */
/*
 * What the recorders of all emulators share: the record from its begin to its end, the filter of
 * accesses, and bugs made on purpose. One source of an emulator includes it, behind its
 * instrument.h, and defines the functions below whose names begin with machine_. C99 and C++.
 *
 * The emulator runs all processors on one thread, so the calls come in the order of the effects and
 * no lock is needed.
 *
 * The record begins when the guest writes R to port 0xE9, and ends when it writes S, when a setting
 * of the header changes, or when the emulator ends. Each environment variable is optional:
 *
 *     PCID_RECORD_FD=N          the open file that takes the record; without it nothing is recorded
 *     PCID_RECORD_VERSION=1|2   2 records A and D too
 *     PCID_RECORD_REGION=N      the region_bits of emit/pcid_seen.h
 *     PCID_RECORD_BREAK=KIND:N  each Nth time forget what the event is to invalidate; KIND is
 *                               invlpg, invpcid, cr3 or fault
 */
#ifndef PCID_RECORDER_H
#define PCID_RECORDER_H

#include <errno.h>
#include <signal.h>
#include <stdarg.h>
#include <stdbool.h>
#include <stdint.h>
#include <stdio.h>
#include <stdlib.h>
#include <string.h>
#include <time.h>
#include <unistd.h>
#include "pcid_seen.h"
#include "pcid_tables.h"

/* Bits of machine_settings beside those of a record's header. */
#define RECORDER_PCIDE 0x10u
#define RECORDER_PAGING 0x20u
#define RECORDER_LONG_MODE 0x40u
#define RECORDER_LEVEL_5 0x80u

#define RECORDER_PROCESSORS 8u
#define RECORDER_SEGMENT 1024u
#define RECORDER_SLOTS (1u << 15)

/* How the emulator ends. */
enum { RECORDER_ENDED = 0, RECORDER_NOT_TAKEN = 3, RECORDER_EARLY = 4 };

/* What the emulator defines. */
static uint32_t machine_processors(void);
static uint32_t machine_settings(uint32_t cpu);
static uint64_t machine_cr3(uint32_t cpu);
static int machine_pge(uint32_t cpu);
static uint32_t machine_address_bits(void);
static uint64_t machine_memory_bytes(void);
static uint64_t machine_microseconds(void);
static uint64_t machine_word(void *context, uint64_t address);
static void machine_flush(uint32_t cpu); /* its whole TLB */

bool pcid_on; /* a record is open */

static struct pcid_record record;
static uint8_t record_buffer[PCID_RECORD_BYTES(2, RECORDER_SEGMENT)];
static struct pcid_tables tables;
static struct pcid_tables_source tables_source;
static uint64_t tables_roots[RECORDER_PROCESSORS];
static struct pcid_seen seen[RECORDER_PROCESSORS];
static struct pcid_seen_slot seen_slots[RECORDER_PROCESSORS][RECORDER_SLOTS];

static int output = -1;
static uint32_t record_version, region_bits, settings;
static enum pcid_bug bug = PCID_NO_BUG, forgotten = PCID_NO_BUG;
static uint64_t bug_period = 1, bug_count, forgotten_count, left_out, refused;
static clock_t begun; /* processor time when the guest's work began */
static volatile sig_atomic_t is_stopped;

/* ---- What is told on standard error, by lines that record/run reads ---------------------------- */

static inline void tell(const char *form, ...)
{
    va_list values;

    va_start(values, form);
    fputs("record: ", stderr);
    vfprintf(stderr, form, values);
    fputc('\n', stderr);
    va_end(values);
}

static inline void tell_progress(void)
{
    static time_t last;
    const time_t now = time(NULL);

    if (now == last)
        return;
    last = now;
    tell("progress %u %llu", record.events, (unsigned long long)machine_microseconds());
}

static inline void tell_end(const char *why)
{
    tell("end %s: events %u, left out %llu, unseen stores %llu, refused %llu, forgotten %llu, "
         "processor milliseconds %llu", why, record.events, (unsigned long long)left_out,
         (unsigned long long)tables.unseen, (unsigned long long)refused,
         (unsigned long long)forgotten_count,
         (unsigned long long)(clock() - begun) / (CLOCKS_PER_SEC / 1000));
}

/* Ends the record, and tells whether it is whole. */
static inline bool end_record(const char *why)
{
    unsigned status;

    pcid_on = false;
    status = pcid_record_end(&record);
    tell_end(why);
    return status == PCID_RECORD_TAKEN;
}

/* Ends the emulator in the middle of an instruction, and so without what it does at its own end.
 * What the guest wrote to the serial line is still to be written. */
static inline void leave(int status)
{
    fflush(NULL);
    _exit(status);
}

static inline void finish(const char *why, int status)
{
    leave(end_record(why) ? status : RECORDER_NOT_TAKEN);
}

/* A call on the record answered this. */
static inline void took(unsigned status)
{
    if (status == PCID_RECORD_TAKEN)
        return;
    if (status == PCID_RECORD_FULL)
        finish("by a full record", RECORDER_ENDED);
    if (status == PCID_RECORD_PUT_FAILED) {
        tell("not taken: %s", strerror(errno));
        finish("by a failed write", RECORDER_NOT_TAKEN);
    }
    refused++;
    tell("refused by %u at event %u", status, record.events);
    if (status > PCID_RECORD_FULL)
        finish("by a refusal", RECORDER_EARLY);
}

static inline int put(void *context, const uint8_t *bytes, size_t count)
{
    (void)context;
    tell_progress();
    while (count > 0) {
        const ssize_t written = write(output, bytes, count);

        if (written < 0 && errno == EINTR)
            continue;
        if (written <= 0)
            return 1;
        bytes += written;
        count -= (size_t)written;
    }
    return 0;
}

/* ---- Bugs made on purpose ---------------------------------------------------------------------- */

static inline bool forgets(enum pcid_bug asked)
{
    if (!pcid_on || asked != bug || ++bug_count % bug_period != 0)
        return false;
    forgotten = bug;
    return true;
}

/* The event that was just recorded is the one that was forgotten, where one was. */
static inline void tell_forgotten(const char *name, uint32_t cpu, uint64_t type, uint64_t pcid,
                                  uint64_t linear)
{
    if (forgotten == PCID_NO_BUG)
        return;
    forgotten = PCID_NO_BUG;
    forgotten_count++;
    tell("forgot %u %s %u %llu 0x%llx 0x%llx", record.events - 1, name, cpu,
         (unsigned long long)type, (unsigned long long)pcid, (unsigned long long)linear);
}

/* ---- Tables ------------------------------------------------------------------------------------ */

static inline uint64_t *new_page(void *context)
{
    (void)context;
    return (uint64_t *)calloc(512, sizeof(uint64_t));
}

static inline bool is_table(uint64_t physical)
{
    return physical >> 12 < tables.frame_count && tables.frames[physical >> 12].level != 0;
}

static inline void record_store(uint32_t cpu, uint64_t physical, uint32_t bytes)
{
    took(pcid_tables_store(&tables, cpu, physical, bytes));
}

static inline void record_entry(uint32_t cpu, uint32_t level, uint64_t address, uint64_t value)
{
    const uint64_t unseen = tables.unseen;

    took(pcid_tables_read(&tables, cpu, level, address, value));
    if (tables.unseen != unseen && unseen < 20)
        tell("unseen store: [0x%llx] = 0x%llx", (unsigned long long)address,
             (unsigned long long)value);
}

/* ---- Accesses ---------------------------------------------------------------------------------- */

static inline void record_answer(uint32_t cpu, unsigned flags, uint64_t linear, uint64_t physical)
{
    if (is_stopped)
        finish("by a signal", RECORDER_EARLY);
    if (pcid_seen_answer(&seen[cpu], flags, linear, physical)) {
        left_out++;
        return;
    }
    took(pcid_tables_settle(&tables, cpu));
    took(pcid_record_answer_unnamed(&record, cpu, flags, linear, physical));
}

static inline void record_fault(uint32_t cpu, unsigned flags, uint64_t linear, unsigned code)
{
    took(pcid_tables_settle(&tables, cpu));
    pcid_seen_fault(&seen[cpu], linear);
    took(pcid_record_fault_unnamed(&record, cpu, flags, linear, code));
}

/* ---- Instructions ------------------------------------------------------------------------------ */

/* CR3, or an operand for it. Without PCIDs bits 11:0 are memory types, and bit 63 is none. */
static inline uint64_t cr3_value(uint64_t value)
{
    return settings & RECORDER_PCIDE ? value : value & 0x000FFFFFFFFFF000;
}

static inline uint64_t pcid_of(uint32_t cpu)
{
    return cr3_value(machine_cr3(cpu)) & 0xFFF;
}

static inline void record_mov_cr3(uint32_t cpu, uint64_t operand)
{
    const uint64_t value = cr3_value(operand);

    took(pcid_tables_settle(&tables, cpu));
    pcid_tables_root(&tables, cpu, value);
    pcid_seen_mov_cr3(&seen[cpu], value);
    took(pcid_record_mov_cr3(&record, cpu, value));
    tell_forgotten("cr3", cpu, 0, value & 0xFFF, 0);
}

static inline void record_invlpg(uint32_t cpu, uint64_t linear)
{
    took(pcid_tables_settle(&tables, cpu));
    pcid_seen_invlpg(&seen[cpu], linear);
    took(pcid_record_invlpg(&record, cpu, linear));
    tell_forgotten("invlpg", cpu, 0, pcid_of(cpu), linear);
}

/* A MOV to CR0, or to CR4, was carried out. */
static inline void record_control(uint32_t cpu, bool is_cr4)
{
    took(pcid_tables_settle(&tables, cpu));
    if (machine_settings(cpu) != settings)
        finish("by a changed setting", RECORDER_EARLY);
    if (!is_cr4)
        return;
    pcid_seen_mov_cr4(&seen[cpu]);
    took(pcid_record_mov_cr4(&record, cpu, machine_pge(cpu)));
}

/* ---- Begin and end ----------------------------------------------------------------------------- */

static inline const char *variable(const char *name, const char *otherwise)
{
    const char *value = getenv(name);

    return value != NULL ? value : otherwise;
}

static inline enum pcid_bug bug_of(const char *name)
{
    static const char *const names[] = {"none", "invlpg", "invpcid", "cr3", "fault"};
    unsigned k;

    for (k = 0; k < 5; k++)
        if (strcmp(name, names[k]) == 0)
            return (enum pcid_bug)k;
    tell("PCID_RECORD_BREAK has no kind %s", name);
    leave(RECORDER_EARLY);
    return PCID_NO_BUG;
}

static inline void read_variables(void)
{
    char kind[16] = "none";
    unsigned long long period = 1;

    output = atoi(variable("PCID_RECORD_FD", "-1"));
    record_version = (uint32_t)atoi(variable("PCID_RECORD_VERSION", "1"));
    region_bits = (uint32_t)atoi(variable("PCID_RECORD_REGION", "30"));
    sscanf(variable("PCID_RECORD_BREAK", "none:1"), "%15[a-z0-9]:%llu", kind, &period);
    bug = bug_of(kind);
    bug_period = period > 0 ? period : 1;
}

static inline void stop(int number)
{
    (void)number;
    is_stopped = 1;
}

static inline bool may_begin(void)
{
    uint32_t cpu;

    settings = machine_settings(0);
    for (cpu = 0; cpu < machine_processors(); cpu++) {
        const uint32_t found = machine_settings(cpu);
        const uint32_t paging = found & (RECORDER_PAGING | RECORDER_LONG_MODE | RECORDER_LEVEL_5);

        if (found == settings && paging == (RECORDER_PAGING | RECORDER_LONG_MODE))
            continue;
        tell("processor %u has the settings 0x%x: no record", cpu, found);
        return false;
    }
    return machine_processors() <= RECORDER_PROCESSORS;
}

static inline void begin(void)
{
    const uint32_t processors = machine_processors();
    const uint64_t frame_count = machine_memory_bytes() >> 12;
    struct pcid_record_start start[RECORDER_PROCESSORS];
    struct pcid_record_header header;
    struct pcid_tables_frame *frames =
        (struct pcid_tables_frame *)calloc(frame_count, sizeof *frames);
    uint32_t cpu;

    memset(&header, 0, sizeof header);
    header.version = record_version;
    header.m = machine_address_bits();
    header.settings = settings & 0xF;
    header.processors = processors;
    header.segment = RECORDER_SEGMENT;
    header.start = start;
    for (cpu = 0; cpu < processors; cpu++) {
        machine_flush(cpu);
        start[cpu].cr3 = cr3_value(machine_cr3(cpu));
        start[cpu].pge = (uint32_t)machine_pge(cpu);
        pcid_seen_begin(&seen[cpu], seen_slots[cpu], RECORDER_SLOTS, region_bits, start[cpu].cr3);
    }
    if (frames == NULL || pcid_record_begin(&record, &header, record_buffer, sizeof record_buffer,
                                            put, NULL) != PCID_RECORD_TAKEN) {
        tell("no record: %s", strerror(errno));
        leave(RECORDER_NOT_TAKEN);
    }
    tables_source.word = machine_word;
    tables_source.page = new_page;
    pcid_tables_begin(&tables, &record, &tables_source, frames, frame_count, tables_roots);
    for (cpu = 0; cpu < processors; cpu++)
        pcid_tables_root(&tables, cpu, start[cpu].cr3);
    pcid_on = true;
}

/* The guest wrote this value to port 0xE9. */
static inline void begin_or_end(unsigned value)
{
    if (value == 'S' && pcid_on)
        finish("by the guest", RECORDER_ENDED);
    if (value == 'S') { /* of a run without a record, which is for comparing times */
        tell_end("by the guest");
        leave(RECORDER_ENDED);
    }
    if (value != 'R' || pcid_on)
        return;
    read_variables();
    begun = clock();
    tell("begin %llu", (unsigned long long)machine_microseconds());
    if (output < 0 || !may_begin())
        return;
    signal(SIGTERM, stop);
    signal(SIGPIPE, SIG_IGN);
    begin();
}

#endif
