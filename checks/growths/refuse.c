/* SPDX-License-Identifier: MIT OR Apache-2.0 */
/* Has one allocation of the program fail that it is preloaded into, the one whose number REFUSE gives, or
 * the start of one thread, whose number REFUSE_THREAD gives; both are counted from 1, in all threads. */
#define _GNU_SOURCE
#include <dlfcn.h>
#include <errno.h>
#include <pthread.h>
#include <stdatomic.h>
#include <stdlib.h>

static long refused_growth, refused_thread;
static atomic_long growths, threads;

__attribute__((constructor)) static void begin(void)
{
    const char *growth = getenv("REFUSE"), *thread = getenv("REFUSE_THREAD");
    refused_growth = growth ? atol(growth) : 0;
    refused_thread = thread ? atol(thread) : 0;
}

static int is_refused(void)
{
    return atomic_fetch_add(&growths, 1) + 1 == refused_growth;
}

void *malloc(size_t size)
{
    static void *(*next)(size_t);
    if (!next)
        next = dlsym(RTLD_NEXT, "malloc");
    if (is_refused()) {
        errno = ENOMEM;
        return NULL;
    }
    return next(size);
}

void *realloc(void *old, size_t size)
{
    static void *(*next)(void *, size_t);
    if (!next)
        next = dlsym(RTLD_NEXT, "realloc");
    if (is_refused()) {
        errno = ENOMEM;
        return NULL;
    }
    return next(old, size);
}

void *aligned_alloc(size_t alignment, size_t size)
{
    static void *(*next)(size_t, size_t);
    if (!next)
        next = dlsym(RTLD_NEXT, "aligned_alloc");
    if (is_refused()) {
        errno = ENOMEM;
        return NULL;
    }
    return next(alignment, size);
}

int posix_memalign(void **out, size_t alignment, size_t size)
{
    static int (*next)(void **, size_t, size_t);
    if (!next)
        next = dlsym(RTLD_NEXT, "posix_memalign");
    if (is_refused())
        return ENOMEM;
    return next(out, alignment, size);
}

int pthread_create(pthread_t *thread, const pthread_attr_t *attributes, void *(*start)(void *), void *argument)
{
    static int (*next)(pthread_t *, const pthread_attr_t *, void *(*)(void *), void *);
    if (!next)
        next = dlsym(RTLD_NEXT, "pthread_create");
    if (atomic_fetch_add(&threads, 1) + 1 == refused_thread)
        return EAGAIN;
    return next(thread, attributes, start, argument);
}
