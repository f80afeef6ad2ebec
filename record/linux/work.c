/* SPDX-License-Identifier: MIT OR Apache-2.0 */
/*
 * The guest's work: what makes an operating system change page tables and invalidate.
 *
 *     work ROUNDS       that many rounds of all kinds of work
 *     work port C       writes a character to port 0xE9, where the recorder listens
 */
#define _GNU_SOURCE
#include <fcntl.h>
#include <pthread.h>
#include <signal.h>
#include <stdio.h>
#include <stdlib.h>
#include <string.h>
#include <sys/mman.h>
#include <sys/wait.h>
#include <unistd.h>

enum { PAGE = 4096, GUARDED = 16 * PAGE, SHARED = 64 * PAGE, AREAS = 16, LARGE = 6 << 20 };

static char *guarded;
static volatile long sum; /* what is read, so that the reads are made */

static void fail(const char *what)
{
    perror(what);
    exit(1);
}

static char *mapping(size_t size, int flags, int file)
{
    char *at = (char *)mmap(NULL, size, PROT_READ | PROT_WRITE, flags, file, 0);

    if (at == MAP_FAILED)
        fail("mmap");
    return at;
}

static void wait_for_all(void)
{
    while (wait(NULL) > 0)
        ;
}

static void write_port(char character)
{
    const int file = open("/dev/port", O_WRONLY);

    if (file < 0 || pwrite(file, &character, 1, 0xE9) != 1)
        fail("/dev/port");
    close(file);
}

/* Opens the page of a fault within the guarded area. */
static void on_fault(int number, siginfo_t *info, void *context)
{
    char *const at = (char *)info->si_addr;

    (void)number;
    (void)context;
    if (at < guarded || at >= guarded + GUARDED)
        _exit(9);
    mprotect((char *)((unsigned long)at & ~(PAGE - 1ul)), PAGE, PROT_READ | PROT_WRITE);
}

/* Rights that are taken away, and given back a page at a time. */
static void change_rights(void)
{
    struct sigaction action;
    int round, page;

    memset(&action, 0, sizeof action);
    action.sa_sigaction = on_fault;
    action.sa_flags = SA_SIGINFO;
    sigaction(SIGSEGV, &action, NULL);
    guarded = mapping(GUARDED, MAP_PRIVATE | MAP_ANONYMOUS, -1);
    memset(guarded, 1, GUARDED);
    for (round = 0; round < 4; round++) {
        mprotect(guarded, GUARDED, round & 1 ? PROT_READ : PROT_NONE);
        for (page = 0; page < GUARDED / PAGE; page++)
            guarded[page * PAGE] = (char)round;
    }
    munmap(guarded, GUARDED);
}

/* Areas that are mapped, moved, emptied and unmapped. */
static void change_areas(unsigned seed)
{
    char *area[AREAS];
    size_t size[AREAS], at;
    int k;

    for (k = 0; k < AREAS; k++) {
        seed = seed * 1103515245 + 12345;
        size[k] = PAGE * (1 + (size_t)(seed / 65536 % 40));
        area[k] = mapping(size[k], MAP_PRIVATE | MAP_ANONYMOUS, -1);
        for (at = 0; at < size[k]; at += PAGE)
            area[k][at] = (char)k;
    }
    for (k = 0; k < AREAS; k += 2)
        munmap(area[k], size[k]);
    for (k = 1; k < AREAS; k += 2) {
        area[k] = (char *)mremap(area[k], size[k], size[k] + 10 * PAGE, MREMAP_MAYMOVE);
        if (area[k] == MAP_FAILED)
            fail("mremap");
        size[k] += 10 * PAGE;
        area[k][size[k] - 1] = 1;
        madvise(area[k], size[k], MADV_DONTNEED);
        area[k][0] += 1;
        munmap(area[k], size[k]);
    }
}

/* An area that Linux may back by large pages, which a fork shares and a change of rights splits. */
static void use_large_pages(void)
{
    char *const area = mapping(LARGE, MAP_PRIVATE | MAP_ANONYMOUS, -1);
    size_t at;

    madvise(area, LARGE, MADV_HUGEPAGE);
    for (at = 0; at < LARGE; at += 17 * PAGE)
        area[at] = 1;
    if (fork() == 0) {
        for (at = 0; at < LARGE; at += 61 * PAGE)
            area[at] += 1;
        _exit(0);
    }
    mprotect(area + LARGE / 2, 2 * PAGE, PROT_READ);
    for (at = 0; at < LARGE; at += 33 * PAGE)
        sum += area[at];
    wait_for_all();
    munmap(area + (1 << 20), 3 << 20);
    area[0] = 2;
    munmap(area, LARGE);
}

/* One file that several processes map and that shrinks. */
static void share_a_file(void)
{
    const int file = memfd_create("shared", 0);
    char *own;
    int child, at;

    if (file < 0 || ftruncate(file, SHARED) != 0)
        fail("memfd_create");
    own = mapping(SHARED, MAP_SHARED, file);
    for (child = 0; child < 3; child++)
        if (fork() == 0) {
            char *const other = mapping(SHARED, MAP_SHARED, file);

            for (at = 0; at < SHARED; at += PAGE) {
                other[at] += (char)child;
                own[at + 1] += (char)child;
            }
            _exit(0);
        }
    wait_for_all();
    if (ftruncate(file, SHARED / 4) != 0)
        fail("ftruncate");
    sum += own[100];
    munmap(own, SHARED);
    close(file);
}

/* Two processes that take turns. */
static void take_turns(void)
{
    int to[2], from[2], turn;
    char bytes[3000];

    memset(bytes, 0, sizeof bytes);
    if (pipe(to) != 0 || pipe(from) != 0)
        fail("pipe");
    if (fork() == 0) {
        for (turn = 0; turn < 20; turn++)
            if (read(to[0], bytes, sizeof bytes) <= 0 || write(from[1], bytes, sizeof bytes) <= 0)
                _exit(1);
        _exit(0);
    }
    for (turn = 0; turn < 20; turn++)
        if (write(to[1], bytes, sizeof bytes) <= 0 || read(from[0], bytes, sizeof bytes) <= 0)
            break;
    wait_for_all();
    close(to[0]);
    close(to[1]);
    close(from[0]);
    close(from[1]);
}

static void *thread(void *seed)
{
    int round;

    for (round = 0; round < 3; round++)
        change_areas((unsigned)(unsigned long)seed + (unsigned)round);
    return NULL;
}

/* Threads of one address space, whose invalidations go to all its processors. */
static void use_threads(void)
{
    pthread_t threads[3];
    unsigned long k;

    for (k = 0; k < 3; k++)
        if (pthread_create(&threads[k], NULL, thread, (void *)(77 * k)) != 0)
            fail("pthread_create");
    for (k = 0; k < 3; k++)
        pthread_join(threads[k], NULL);
}

int main(int count, char **words)
{
    int rounds, round;

    if (count == 3 && strcmp(words[1], "port") == 0) {
        write_port(words[2][0]);
        return 0;
    }
    rounds = count > 1 ? atoi(words[1]) : 1;
    for (round = 0; round < rounds; round++) {
        change_areas((unsigned)round);
        change_rights();
        take_turns();
        share_a_file();
        use_threads();
        if (round % 4 == 0)
            use_large_pages();
        if (fork() == 0) { /* which copies what is written to from now on */
            change_areas((unsigned)round + 1000);
            _exit(0);
        }
        wait_for_all();
    }
    return 0;
}
