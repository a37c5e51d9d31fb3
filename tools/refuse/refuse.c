/* A library that is loaded before the C library, and refuses the program's own requests for memory:
 * LD_PRELOAD=./refuse.so
 *
 *   REFUSE_AT=N     the N-th request, counted from 1, is refused
 *   REFUSE_FROM=N   the N-th and each later one
 *   REFUSE_ALL=1    the C library's own requests count too, as those of a thread's start
 *   REFUSE_TELL=1   a line for each request that is met
 *   REFUSE_LOG=FILE where the lines go: 'REQUEST <number> <bytes>' and 'REFUSED <number> <bytes>'
 *
 * A request is a malloc, a calloc, or a realloc that allocates or enlarges; one that shrinks counts
 * too, since sizes aren't compared. Needs the GNU C library:
 *
 *   cc -O2 -shared -fPIC -o refuse.so refuse.c */
#define _GNU_SOURCE
#include <errno.h>
#include <fcntl.h>
#include <link.h>
#include <stdatomic.h>
#include <stdint.h>
#include <stdio.h>
#include <stdlib.h>
#include <unistd.h>

extern void *__libc_malloc(size_t), *__libc_calloc(size_t, size_t), *__libc_realloc(void *, size_t);

/* The program's own part of memory: only calls that return there count, so that the numbers don't
 * depend on the C library's version. */
static uintptr_t low, high;
static unsigned long at, from;
static int all, telling, ready, out = -1;
static atomic_ulong seen;

static int first_object(struct dl_phdr_info *info, size_t size, void *data) {
    (void)size;
    (void)data;
    for (int i = 0; i < info->dlpi_phnum; i++) {
        const ElfW(Phdr) *part = &info->dlpi_phdr[i];
        if (part->p_type != PT_LOAD) continue;
        uintptr_t begin = info->dlpi_addr + part->p_vaddr, end = begin + part->p_memsz;
        if (!low || begin < low) low = begin;
        if (end > high) high = end;
    }
    return 1; /* the first object is the program */
}

static unsigned long number(const char *name) {
    const char *text = getenv(name);
    return text ? strtoul(text, NULL, 10) : 0;
}

__attribute__((constructor)) static void begin(void) {
    at = number("REFUSE_AT");
    from = number("REFUSE_FROM");
    all = number("REFUSE_ALL") != 0;
    telling = number("REFUSE_TELL") != 0;
    const char *log = getenv("REFUSE_LOG");
    if (log) out = open(log, O_WRONLY | O_CREAT | O_APPEND | O_CLOEXEC, 0644);
    dl_iterate_phdr(first_object, NULL);
    ready = 1;
}

static void tell(const char *what, unsigned long count, unsigned long bytes) {
    char line[96];
    if (out < 0) return;
    int length = snprintf(line, sizeof line, "%s %lu %lu\n", what, count, bytes);
    if (write(out, line, (size_t)length) < 0) return;
}

static int refuse(size_t bytes, void *caller) {
    uintptr_t place = (uintptr_t)caller;
    if (!ready || (!all && (place < low || place >= high))) return 0;
    unsigned long count = atomic_fetch_add(&seen, 1) + 1;
    if (telling) tell("REQUEST", count, (unsigned long)bytes);
    if (count != at && !(from && count >= from)) return 0;
    tell("REFUSED", count, (unsigned long)bytes);
    errno = ENOMEM;
    return 1;
}

void *malloc(size_t bytes) { return refuse(bytes, __builtin_return_address(0)) ? NULL : __libc_malloc(bytes); }

void *calloc(size_t count, size_t bytes) { return refuse(count * bytes, __builtin_return_address(0)) ? NULL : __libc_calloc(count, bytes); }

void *realloc(void *old, size_t bytes) { return bytes && refuse(bytes, __builtin_return_address(0)) ? NULL : __libc_realloc(old, bytes); }
