/* SPDX-License-Identifier: MIT OR Apache-2.0 */
/*
 * What an event costs its recorder: nanoseconds and bytes of emit/, for each kind of event, with `put`
 * into a buffer in memory that is used again and again.
 *
 * usage: cost [RUNS]    (60 if left out)
 *
 * Each row is the least of so many runs: of one thread that owns its record; of threads that share a record
 * under a mutex ("lock"); of a log for each thread, with two stamps of one atomic counter an event ("logs"),
 * or of the time-stamp counter ("logs, tsc"). The last three have a third each of writes, INVLPG and
 * accesses without moments. Processor time is that of an event; the clock is that of an event of a thread.
 */
#define _POSIX_C_SOURCE 200809L
#include <pthread.h>
#include <stdatomic.h>
#include <stdio.h>
#include <stdlib.h>
#include <time.h>
#include <x86intrin.h>

#include "../../emit/pcid_log.h"

enum { EVENTS = 100000, THREADS = 4, SEGMENT = 1024, SPACE = 1 << 16 };

/* Where bytes go: a space in memory, from its start again where it is full. */
struct sink {
    uint8_t space[SPACE];
    size_t used;
    uint64_t bytes;
};

static int put(void *context, const uint8_t *bytes, size_t count)
{
    struct sink *const sink = context;

    if (sink->used + count > SPACE)
        sink->used = 0;
    __builtin_memcpy(sink->space + sink->used, bytes, count);
    sink->used += count;
    sink->bytes += count;
    return 0;
}

/* Nanoseconds on the clock, and of the processors that this process had. */
struct times {
    double clock, processor;
};

static double told(clockid_t clock)
{
    struct timespec time;

    clock_gettime(clock, &time);
    return time.tv_sec * 1e9 + time.tv_nsec;
}

static struct times now(void)
{
    return (struct times){told(CLOCK_MONOTONIC), told(CLOCK_PROCESS_CPUTIME_ID)};
}

/* The least of what was seen, by each of the two, and of what passed since. */
static struct times least_of(struct times least, struct times start)
{
    const struct times end = now();
    const double clock = end.clock - start.clock, processor = end.processor - start.processor;

    return (struct times){clock < least.clock ? clock : least.clock,
                          processor < least.processor ? processor : least.processor};
}

static void must(enum pcid_record_status status)
{
    if (status != PCID_RECORD_TAKEN) {
        fprintf(stderr, "cost: an event was not taken: %d\n", (int)status);
        exit(1);
    }
}

enum kind { WRITE, INVLPG, ANSWER, NAMED, FAULT, KINDS };
static const char *const names[KINDS] = {"write of a table word", "INVLPG", "access, no moments",
                                         "access, four moments", "page fault, no moments"};

static inline void event(struct pcid_record *record, uint32_t cpu, enum kind kind, uint64_t k)
{
    const uint64_t word = 0x4000 + 8 * (k % 512), page = (k % 512) << 12;
    uint32_t moments[4];

    switch (kind) {
    case WRITE:
        must(pcid_record_write(record, cpu, word, 0x9007 + (k << 12) % 0x100000));
        break;
    case INVLPG:
        must(pcid_record_invlpg(record, cpu, page));
        break;
    case ANSWER:
        must(pcid_record_answer_unnamed(record, cpu, PCID_RECORD_USER, page + 0x123, 0x9123));
        break;
    case NAMED:
        moments[0] = moments[1] = moments[2] = moments[3] = pcid_record_moment(record);
        must(pcid_record_answer(record, cpu, PCID_RECORD_USER, page + 0x123, 0x9123, moments, 4));
        break;
    default:
        must(pcid_record_fault_unnamed(record, cpu, PCID_RECORD_USER, page + 0x123, 4));
    }
}

static const struct pcid_record_start starts[THREADS] = {{0x1001, 1}};
static struct sink sinks[THREADS];
static struct pcid_record shared;
static struct pcid_log logs[THREADS];
static pthread_mutex_t lock = PTHREAD_MUTEX_INITIALIZER;
static atomic_uint_fast64_t counter;
static int runs = 60;

static void begin(uint32_t threads)
{
    static uint8_t buffer[PCID_RECORD_BYTES(1, SEGMENT)];
    const struct pcid_record_header header = {1, 40, PCID_RECORD_WP, threads, SEGMENT, starts};

    sinks[0].bytes = 0;
    must(pcid_record_begin(&shared, &header, buffer, sizeof buffer, put, &sinks[0]));
}

static void *under_lock(void *number)
{
    const uint32_t cpu = (uint32_t)(size_t)number;
    uint64_t k;

    for (k = 0; k < EVENTS; k++) {
        pthread_mutex_lock(&lock);
        event(&shared, cpu, (enum kind)(k % 3), k);
        pthread_mutex_unlock(&lock);
    }
    return NULL;
}

static void *into_log(void *number)
{
    const uint32_t cpu = (uint32_t)(size_t)number;
    uint64_t k;

    for (k = 0; k < EVENTS; k++) {
        const uint64_t first = atomic_fetch_add(&counter, 1) + 1;
        const uint64_t last = atomic_fetch_add(&counter, 1) + 1;

        must(pcid_log_span(&logs[cpu], first, last));
        event(&logs[cpu].record, cpu, (enum kind)(k % 3), k);
    }
    return NULL;
}

static void *into_log_by_clock(void *number)
{
    const uint32_t cpu = (uint32_t)(size_t)number;
    uint64_t k;

    for (k = 0; k < EVENTS; k++) {
        const uint64_t first = __rdtsc();
        const uint64_t last = __rdtsc() + 1;

        must(pcid_log_span(&logs[cpu], first, last));
        event(&logs[cpu].record, cpu, (enum kind)(k % 3), k);
    }
    return NULL;
}

/* Each of so many threads does its events. */
static void together(uint32_t threads, void *(*work)(void *))
{
    pthread_t made[THREADS];
    uint32_t k;

    for (k = 0; k < threads; k++)
        if (pthread_create(&made[k], NULL, work, (void *)(size_t)k) != 0)
            exit(1);
    for (k = 0; k < threads; k++)
        pthread_join(made[k], NULL);
}

static void tell(const char *what, uint32_t threads, struct times least, uint64_t bytes)
{
    const double all = (double)EVENTS * threads;

    printf("%-34s %7u %12.1f %12.1f %8.1f\n", what, threads, least.processor / all,
           least.clock / EVENTS, bytes / all);
}

static void one_record(enum kind kind)
{
    struct times least = {1e300, 1e300};
    uint64_t k;
    int run;

    for (run = 0; run < runs; run++) {
        struct times start;

        begin(1);
        start = now();
        for (k = 0; k < EVENTS; k++)
            event(&shared, 0, kind, k);
        must(pcid_record_end(&shared));
        least = least_of(least, start);
    }
    tell(names[kind], 1, least, sinks[0].bytes);
}

static void many(const char *what, uint32_t threads, void *(*work)(void *), int is_shared)
{
    struct times least = {1e300, 1e300};
    uint64_t bytes = 0;
    uint32_t k;
    int run;

    for (run = 0; run < runs; run++) {
        struct times start;

        if (is_shared)
            begin(threads);
        for (k = 0; !is_shared && k < threads; k++) {
            const struct pcid_log_header header = {1, 40, PCID_RECORD_WP, threads, k, {0x1001, 1}};

            sinks[k].bytes = 0;
            must(pcid_log_begin(&logs[k], &header, put, &sinks[k]));
        }
        start = now();
        together(threads, work);
        least = least_of(least, start);
        for (k = 0, bytes = 0; k < (is_shared ? 1 : threads); k++)
            bytes += sinks[k].bytes;
    }
    tell(what, threads, least, bytes);
}

int main(int count, char **words)
{
    enum kind kind;

    if (count > 1)
        runs = atoi(words[1]);
    if (count > 2 || runs < 1) {
        fprintf(stderr, "usage: cost [RUNS]\n");
        return 2;
    }
    printf("%-34s %7s %12s %12s %8s\n", "", "threads", "processor ns", "clock ns", "bytes");
    for (kind = WRITE; kind < KINDS; kind++)
        one_record(kind);
    many("lock", 1, under_lock, 1);
    many("lock", THREADS, under_lock, 1);
    many("logs", 1, into_log, 0);
    many("logs", THREADS, into_log, 0);
    many("logs, tsc", 1, into_log_by_clock, 0);
    many("logs, tsc", THREADS, into_log_by_clock, 0);
    return 0;
}
