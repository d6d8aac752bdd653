/* Loaded before the C library (LD_PRELOAD), it refuses one of a program's requests for memory, and the program itself
   says which one: a request for REFUSE + N bytes lets the Nth one after it be refused, none where N is 0; a request for
   WAS_REFUSED bytes succeeds where one was refused since, and lets none be refused any more. No memory has so many
   bytes, so that these requests have no other meaning. */
#define _GNU_SOURCE
#include <dlfcn.h>
#include <stdatomic.h>
#include <stdbool.h>
#include <stdlib.h>

static const size_t REFUSE = (size_t)1 << 60, WAS_REFUSED = (size_t)1 << 61, MOST = (size_t)1 << 30;
static atomic_long left;
static atomic_bool refused;

/* Whether this request is refused. Those of several threads may come at once. */
static bool is_refused(void)
{
    if (atomic_load(&left) <= 0 || atomic_fetch_sub(&left, 1) != 1) return false;
    atomic_store(&refused, true);
    return true;
}

void *malloc(size_t size)
{
    static void *(*next)(size_t);
    if (!next) next = (void *(*)(size_t))dlsym(RTLD_NEXT, "malloc");
    if (size == WAS_REFUSED) {
        atomic_store(&left, 0);
        return atomic_exchange(&refused, false) ? next(1) : NULL;
    }
    if (size >= REFUSE && size - REFUSE <= MOST) {
        atomic_store(&refused, false);
        atomic_store(&left, (long)(size - REFUSE));
        return NULL;
    }
    return is_refused() ? NULL : next(size);
}

void *realloc(void *at, size_t size)
{
    static void *(*next)(void *, size_t);
    if (!next) next = (void *(*)(void *, size_t))dlsym(RTLD_NEXT, "realloc");
    return is_refused() ? NULL : next(at, size);
}
