/*
 * What the tests in C share: checks that count, random numbers that each run repeats, and memory
 * that ends at a page that nobody may touch. Include it after defining _GNU_SOURCE.
 */
#ifndef CLEARMAP_TESTING_H
#define CLEARMAP_TESTING_H

#include <stdint.h>
#include <stdio.h>
#include <stdlib.h>
#include <string.h>
#include <sys/mman.h>
#include <unistd.h>

static long tried, wrong;

#define CHECK(what)                                                                    \
    do {                                                                               \
        ++tried;                                                                       \
        if (!(what) && ++wrong <= 20)                                                  \
            printf("%s:%d: not so: %s\n", strrchr("/" __FILE__, '/') + 1, __LINE__, #what); \
    } while (0)

static uint32_t seed = 1;

/* A number from 0 to below - 1. */
static inline uint32_t draw(uint32_t below) {
    seed = seed * 1664525u + 1013904223u;
    return (uint32_t)(((uint64_t)seed * below) >> 32);
}

/* Some bytes that end where a page begins that nobody may touch. */
struct guarded {
    void *pages, *place;
    size_t whole;
};

static inline struct guarded guard(size_t size, size_t align) {
    size_t page = (size_t)sysconf(_SC_PAGESIZE), whole = (size + page) / page * page;
    char *pages = mmap(NULL, whole + page, PROT_READ | PROT_WRITE, MAP_PRIVATE | MAP_ANONYMOUS, -1,
                       0);
    if (pages == MAP_FAILED || mprotect(pages + whole, page, PROT_NONE)) exit(2);
    return (struct guarded){pages, pages + (whole - size) / align * align, whole + page};
}

static inline void unguard(struct guarded g) { munmap(g.pages, g.whole); }

#endif
