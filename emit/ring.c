/* SPDX-License-Identifier: MIT OR Apache-2.0 */
/*
 * ring.c: a recorder whose `put` never sleeps and never allocates. It copies whole segments into a ring in
 * memory, and a reader drains the ring to a file: docs/RECORDING.md ("In a kernel").
 *
 * usage: ring [full] > run.record
 *
 * The recorder is one writer, since `put` is called under the record's lock, and the reader is one thread. So
 * the ring needs no lock of its own: each side stores one counter, behind the bytes, and loads the other's.
 * In Linux these are smp_store_release() and smp_load_acquire(), and the reader is a read() of a file in
 * debugfs, or a work item.
 *
 * A `put` that finds no room ends the record: what was put is a record whose tail is cut, which emit/close.c
 * closes. So the recorder waits for room before an event, at a place where it holds no lock and may sleep. With
 * `full` nobody waits and the reader starts too late, which shows a cut record: the status is 1.
 */
#define _POSIX_C_SOURCE 200809L
#include <pthread.h>
#include <stdio.h>
#include <string.h>
#include <time.h>

#include "pcid_record.h"

/* A ring has room for several segments, and a power of two of bytes. */
enum { SEGMENT = 64, SPACE = 1 << 16, EVENTS = 20000 };

struct ring {
    uint8_t space[SPACE];
    size_t put;     /* bytes that were put, stored by the recorder alone */
    size_t drained; /* bytes that were drained, stored by the reader alone */
    int is_done;
};

/* Copies the bytes to the ring, all of them or none. Safe under a spinlock with interrupts off. */
static int ring_put(void *context, const uint8_t *bytes, size_t count)
{
    struct ring *const ring = context;
    const size_t at = ring->put % SPACE;
    const size_t drained = __atomic_load_n(&ring->drained, __ATOMIC_ACQUIRE);
    const size_t first = count < SPACE - at ? count : SPACE - at;

    if (count > SPACE - (ring->put - drained))
        return 1;
    memcpy(ring->space + at, bytes, first);
    memcpy(ring->space, bytes + first, count - first);
    __atomic_store_n(&ring->put, ring->put + count, __ATOMIC_RELEASE);
    return 0;
}

/* Writes what the ring has, up to its end or up to what was put. Answers how many bytes. */
static size_t ring_drain(struct ring *ring, FILE *file)
{
    const size_t at = ring->drained % SPACE;
    const size_t held = __atomic_load_n(&ring->put, __ATOMIC_ACQUIRE) - ring->drained;
    const size_t count = held < SPACE - at ? held : SPACE - at;

    if (fwrite(ring->space + at, 1, count, file) != count)
        return 0;
    __atomic_store_n(&ring->drained, ring->drained + count, __ATOMIC_RELEASE);
    return count;
}

/* Whether the next segment fits, whatever its events. For the recorder, before it takes the record's lock. */
static int ring_has_room(const struct ring *ring)
{
    const size_t held = ring->put - __atomic_load_n(&ring->drained, __ATOMIC_ACQUIRE);

    return SPACE - held >= PCID_RECORD_BYTES(1, SEGMENT);
}

static struct ring ring;
static const struct timespec short_time = {0, 100000};

static void *reader(void *file)
{
    int is_done;

    do {
        is_done = __atomic_load_n(&ring.is_done, __ATOMIC_ACQUIRE);
        while (ring_drain(&ring, file) != 0)
            ;
        nanosleep(&short_time, NULL);
    } while (!is_done);
    return NULL;
}

/* A guest maps a page anew again and again, invalidates it and reads it. */
static enum pcid_record_status record_run(struct pcid_record *record, int waits)
{
    enum pcid_record_status status = PCID_RECORD_TAKEN;
    uint32_t k;

    pcid_record_write(record, 0, 0x1000, 0x2007);
    pcid_record_write(record, 0, 0x2000, 0x3007);
    pcid_record_write(record, 0, 0x3000, 0x4007);
    for (k = 0; k < EVENTS / 3 && status == PCID_RECORD_TAKEN; k++) {
        const uint64_t frame = (9 + (uint64_t)k % 8) << 12;

        /* (three events fill one segment at most) */
        while (waits && !ring_has_room(&ring))
            nanosleep(&short_time, NULL);
        pcid_record_write(record, 0, 0x4028, frame | 7);
        pcid_record_invlpg(record, 0, 0x5000);
        status = pcid_record_answer_unnamed(record, 0, PCID_RECORD_USER, 0x5123, frame | 0x123);
    }
    while (waits && !ring_has_room(&ring))
        nanosleep(&short_time, NULL);
    return status;
}

int main(int count, char **words)
{
    static uint8_t buffer[PCID_RECORD_BYTES(1, SEGMENT)];
    static const struct pcid_record_start start[1] = {{0x1001, 1}};
    static const struct pcid_record_header header = {1, 40, PCID_RECORD_WP, 1, SEGMENT, start};
    const int is_late = count == 2 && strcmp(words[1], "full") == 0;
    enum pcid_record_status status;
    struct pcid_record record;
    pthread_t thread;

    if (!is_late && pthread_create(&thread, NULL, reader, stdout) != 0)
        return 2;
    pcid_record_begin(&record, &header, buffer, sizeof buffer, ring_put, &ring);
    record_run(&record, !is_late);
    status = pcid_record_end(&record);
    __atomic_store_n(&ring.is_done, 1, __ATOMIC_RELEASE);
    if (is_late)
        reader(stdout);
    else
        pthread_join(thread, NULL);
    return status == PCID_RECORD_TAKEN ? 0 : 1;
}
