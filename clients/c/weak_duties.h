/* What the weak model of libclearmap makes of its callers' duties (weak_model.c). */
#ifndef WEAK_DUTIES_H
#define WEAK_DUTIES_H

#include <stdbool.h>
#include <stddef.h>
#include <stdint.h>

/* Some bytes of the caller's. */
struct memory {
    const void *start;
    size_t size;
};

/* Ends the program where the caller hasn't done a duty. */
void duty(bool is_done, const char *what);

/* So many items of the caller's. */
struct memory given(const void *start, size_t count, size_t size, size_t align);

/* What is written lies apart from what is read or what else is written. */
void apart(struct memory a, struct memory b);

/* A sum of all bytes, which changes with each of them. */
uint32_t read_all(struct memory m);

/* Puts other bytes into answers and onto the stack, and another number into errno. */
void scribble(void *answers, size_t size);

#endif
