/*
 * The callers' duties to the weak model of libclearmap. It is a file of its own so that a sanitizer
 * can watch what it reads and writes of its callers' memory, without slowing down the searches.
 */
#include "weak_duties.h"

#include <errno.h>
#include <stdio.h>
#include <stdlib.h>
#include <string.h>

enum { SCRIBBLED = 4096 };

void duty(bool is_done, const char *what) {
    if (is_done) return;
    fprintf(stderr, "weak model of libclearmap: %s\n", what);
    abort();
}

struct memory given(const void *start, size_t count, size_t size, size_t align) {
    duty(start != NULL, "a pointer is null");
    duty((uintptr_t)start % align == 0, "a pointer is not aligned for its type");
    return (struct memory){start, count * size};
}

void apart(struct memory a, struct memory b) {
    uintptr_t p = (uintptr_t)a.start, q = (uintptr_t)b.start;
    bool is_apart = !a.size || !b.size || p + a.size <= q || q + b.size <= p;
    duty(is_apart, "what is written overlaps what is read, or what else is written");
}

uint32_t read_all(struct memory m) {
    const unsigned char *bytes = m.start;
    uint32_t sum = 0;
    for (size_t k = 0; k < m.size; k++) sum += bytes[k] * (2 * (uint32_t)k + 1);
    return sum;
}

void scribble(void *answers, size_t size) {
    unsigned char stack[SCRIBBLED];
    memset(stack, 0xA5, sizeof stack);
    __asm__ volatile("" : : "r"(stack) : "memory");
    memset(answers, 0x5A, size);
    errno = EILSEQ;
}
