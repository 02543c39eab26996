/* An allocator that refuses one call, for programs that are started with it by LD_PRELOAD.

   REFUSED_IN names the program that is meant, REFUSED_CALL the number of the call, from 1. When it
   is refused, the file REFUSED_MARK gets a line: the place in the program that called, and how many
   calls of this place there were. So one and the same call is known again in another run, where
   threads may have made their calls in another order. */
#define _GNU_SOURCE
#include <dlfcn.h>
#include <errno.h>
#include <fcntl.h>
#include <stdatomic.h>
#include <stdio.h>
#include <stdlib.h>
#include <string.h>
#include <unistd.h>

extern void *__libc_malloc(size_t);
extern void *__libc_calloc(size_t, size_t);
extern void *__libc_realloc(void *, size_t);
extern void *__libc_memalign(size_t, size_t);

enum { PLACES = 4096 };

static atomic_long calls;
static struct { _Atomic(void *) place; atomic_long calls; } places[PLACES];

static long refused_call(void) {
    const char *name = getenv("REFUSED_IN"), *call = getenv("REFUSED_CALL");
    if (!name || !call || strcmp(name, program_invocation_short_name))
        return 0;
    return atol(call);
}

/* Counts a call of this place, and says how many there were. */
static long count_at(void *place) {
    for (int at = 0; at < PLACES; at++) {
        void *none = NULL;
        if (atomic_compare_exchange_strong(&places[at].place, &none, place) || none == place)
            return atomic_fetch_add(&places[at].calls, 1) + 1;
    }
    return 0;
}

/* Leaves the file by which it is known that a call was refused, and which. */
static void leave_mark(void *place, long number) {
    const char *name = getenv("REFUSED_MARK");
    int file = name ? open(name, O_WRONLY | O_CREAT | O_TRUNC | O_CLOEXEC, 0644) : -1;
    if (file < 0)
        return;
    Dl_info object = {0};
    char line[512];
    dladdr(place, &object);
    const char *program = object.dli_fname ? basename(object.dli_fname) : "?";
    int length = snprintf(line, sizeof line, "%s+%lx %ld\n", program,
                          (unsigned long)((char *)place - (char *)object.dli_fbase), number);
    if (write(file, line, length) < 0)
        _exit(99);
    close(file);
}

static int is_refused(void *place) {
    long number = count_at(place);
    if (atomic_fetch_add(&calls, 1) + 1 != refused_call())
        return 0;
    leave_mark(place, number);
    errno = ENOMEM;
    return 1;
}

#define PLACE __builtin_return_address(0)

void *malloc(size_t size) { return is_refused(PLACE) ? NULL : __libc_malloc(size); }

void *calloc(size_t count, size_t size) {
    return is_refused(PLACE) ? NULL : __libc_calloc(count, size);
}

void *realloc(void *old, size_t size) {
    return is_refused(PLACE) ? NULL : __libc_realloc(old, size);
}

void *memalign(size_t align, size_t size) {
    return is_refused(PLACE) ? NULL : __libc_memalign(align, size);
}

void *aligned_alloc(size_t align, size_t size) {
    return is_refused(PLACE) ? NULL : __libc_memalign(align, size);
}

int posix_memalign(void **place, size_t align, size_t size) {
    void *got = is_refused(PLACE) ? NULL : __libc_memalign(align, size);
    if (!got)
        return ENOMEM;
    *place = got;
    return 0;
}
