/*
 * Measures what each call of libclearmap takes: stack, over the caller's frame, and memory.
 *
 *     measure_calls           a line for each call and map: NAME WIDTH HEIGHT STACK REQUESTS ASKED
 *                             HELD, the last three requests, their bytes, and the bytes not freed
 *
 * Each call runs in a thread of its own, on a stack that is painted. Linked with -Wl,--wrap= of
 * malloc, calloc, realloc and free. Its status is 1 if a call has another status than DONE.
 */
#define _GNU_SOURCE
#include "clearmap.h"

#include <malloc.h>
#include <pthread.h>
#include <stdbool.h>
#include <stdio.h>
#include <stdlib.h>
#include <string.h>
#include <sys/mman.h>

enum { STACK = 1 << 18, PAINT = 0xC5, CALLS = 27 };

/* ---- The heap -------------------------------------------------------------------------------- */

static _Thread_local bool is_counted;
static _Thread_local size_t requests, asked, held;
void *__real_malloc(size_t size);
void *__real_calloc(size_t count, size_t size);
void *__real_realloc(void *old, size_t size);
void __real_free(void *place);
void *__wrap_malloc(size_t size);
void *__wrap_calloc(size_t count, size_t size);
void *__wrap_realloc(void *old, size_t size);
void __wrap_free(void *place);

static void *count(void *place, size_t size) {
    if (is_counted) requests++, asked += size, held += malloc_usable_size(place);
    return place;
}

void *__wrap_malloc(size_t size) { return count(__real_malloc(size), size); }

void *__wrap_calloc(size_t number, size_t size) {
    return count(__real_calloc(number, size), number * size);
}

void *__wrap_realloc(void *old, size_t size) {
    if (is_counted) held -= malloc_usable_size(old);
    return count(__real_realloc(old, size), size);
}

void __wrap_free(void *place) {
    if (is_counted) held -= malloc_usable_size(place);
    __real_free(place);
}

/* ---- A call on a painted stack --------------------------------------------------------------- */

struct map {
    clearmap_bytes in_bytes;
    clearmap_bits in_bits;
    uint8_t *bytes, *bytes_out;
    uint64_t *words, *packed;
    uint32_t *distances;
    clearmap_near *nears;
    size_t all, all_words, length; /* the words of the rows, and with the marks of tiles */
};

struct task {
    const struct map *map;
    unsigned char *bottom;
    int kind;
    uint32_t metric, edge, status;
    size_t stack, requests, asked, held;
};

static const char *const names[CALLS] = {
    "pack", "unpack", "bytes_distances", "bytes_nearest", "bytes_at", "bytes_rect", "bytes_path",
    "bytes_clear_of", "bits_distances", "bits_nearest", "bits_at", "bits_rect", "bits_path",
    "bits_clear_of", "mark", "paint", "clear", "bytes_at_many", "bytes_clear_many", "bytes_costs",
    "bits_at_many", "bits_clear_many", "bits_costs", "bytes_hits", "bits_hits", "bytes_hits_many",
    "bits_hits_many"};

#define AREA m->bytes, m->all, &m->in_bytes
#define PLACE m->words, m->length, &m->in_bits
#define BYTES AREA, t->metric, t->edge
#define WORDS PLACE, t->metric, t->edge

static uint32_t call(const struct task *t) {
    const struct map *m = t->map;
    uint32_t width = m->in_bytes.width, height = m->in_bytes.height;
    uint16_t right = (uint16_t)(width - 1), below = (uint16_t)(height - 1);
    clearmap_cell path[3] = {{0, 0}, {right, 0}, {right, below}};
    clearmap_near near;
    clearmap_found found;
    clearmap_bits bits;
    static const uint8_t table[9] = {9, 8, 7, 6, 5, 4, 3, 2, 1};
    uint8_t clear[3];
    const int32_t x = 65536 * (int32_t)width + 9, y = 65536 * (int32_t)height + 9;
    clearmap_corner corners[8] = {{-9, 0}, {x, -9}, {x, y}, {-9, y},
                                  {0, 0},  {9, 0},  {9, 9}, {0, 9}};
    clearmap_near nears[3];
    size_t wrong;
    switch (t->kind) {
    case 0: return clearmap_pack(m->bytes, m->all, &m->in_bytes, m->packed, m->all_words, &bits);
    case 1: return clearmap_unpack(m->words, m->length, &m->in_bits, 0, 1, m->bytes, m->all);
    case 2: return clearmap_bytes_distances(BYTES, 0, height, m->distances, m->all);
    case 3: return clearmap_bytes_nearest(BYTES, 0, height, m->nears, m->all);
    case 4: return clearmap_bytes_at(BYTES, width / 2, height / 2, &near);
    case 5: return clearmap_bytes_rect(BYTES, 0, 0, width, height, &found);
    case 6: return clearmap_bytes_path(BYTES, path, 3, &found);
    case 7: return clearmap_bytes_clear_of(BYTES, path, 3, 50, &found);
    case 8: return clearmap_bits_distances(WORDS, 0, height, m->distances, m->all);
    case 9: return clearmap_bits_nearest(WORDS, 0, height, m->nears, m->all);
    case 10: return clearmap_bits_at(WORDS, width / 2, height / 2, &near);
    case 11: return clearmap_bits_rect(WORDS, 0, 0, width, height, &found);
    case 12: return clearmap_bits_path(WORDS, path, 3, &found);
    case 13: return clearmap_bits_clear_of(WORDS, path, 3, 50, &found);
    case 14:
        bits = m->in_bits;
        return clearmap_mark(m->words, m->length, &bits, m->all_words);
    case 15: /* each tile's mark is taken away */
        bits = m->in_bits;
        memcpy(m->packed, m->words, 8 * m->length);
        return clearmap_paint(m->packed, m->length, &bits, 0, 0, width, height);
    case 16:
        memcpy(m->packed, m->words, 8 * m->length);
        return clearmap_clear(m->packed, m->length, &m->in_bits, 0, 0, width, height);
    case 17: return clearmap_bytes_at_many(BYTES, path, 3, nears, 3, &wrong);
    case 18: return clearmap_bytes_clear_many(BYTES, path, 3, 50, clear, 3, &wrong);
    case 19: return clearmap_bytes_costs(BYTES, table, 9, 0, height, m->bytes_out, m->all);
    case 20: return clearmap_bits_at_many(WORDS, path, 3, nears, 3, &wrong);
    case 21: return clearmap_bits_clear_many(WORDS, path, 3, 50, clear, 3, &wrong);
    case 22: return clearmap_bits_costs(WORDS, table, 9, 0, height, m->bytes_out, m->all);
    case 23: return clearmap_bytes_hits(AREA, t->edge, corners, 4, clear);
    case 24: return clearmap_bits_hits(PLACE, t->edge, corners, 4, clear);
    case 25: return clearmap_bytes_hits_many(AREA, t->edge, corners, 8, 4, clear, 3);
    default: return clearmap_bits_hits_many(PLACE, t->edge, corners, 8, 4, clear, 3);
    }
}

/* Paints the stack below its own frame; the call then runs where this did. */
static __attribute__((noinline)) void paint(unsigned char *bottom) {
    unsigned char *here = __builtin_frame_address(0);
    for (volatile unsigned char *p = bottom; p < here - 256; p++) *p = PAINT;
}

/* The call's frame is this function's, with what `call` holds; so a little more is measured. */
static void *run(void *given) {
    struct task *t = given;
    paint(t->bottom);
    requests = asked = held = 0;
    is_counted = true;
    t->status = call(t);
    is_counted = false;
    const unsigned char *low = t->bottom, *here = __builtin_frame_address(0);
    while (*low == PAINT) low++;
    t->stack = (size_t)(here - low), t->requests = requests, t->asked = asked, t->held = held;
    return NULL;
}

static bool measure(struct task *t, unsigned char *stack) {
    pthread_t thread;
    pthread_attr_t attributes;
    t->bottom = stack;
    if (pthread_attr_init(&attributes) || pthread_attr_setstack(&attributes, stack, STACK)
        || pthread_create(&thread, &attributes, run, t) || pthread_join(thread, NULL))
        exit(2);
    printf("%s %u %u %zu %zu %zu %zu\n", names[t->kind], t->map->in_bytes.width,
           t->map->in_bytes.height, t->stack, t->requests, t->asked, t->held);
    return t->status == CLEARMAP_DONE;
}

/* ---- Maps ------------------------------------------------------------------------------------ */

static void *room(size_t size) {
    void *place = malloc(size);
    if (!place) exit(2);
    return place;
}

/* A map with an obstacle in each `every`th cell, and marks of its tiles; 0 for none of either. */
static struct map make(uint32_t width, uint32_t height, size_t every) {
    struct map m = {.in_bytes = {width, height, width, 1, 255}, .all = (size_t)width * height};
    m.all_words = ((size_t)width + 63) / 64 * height;
    m.length = m.all_words + ((size_t)height + 63) / 64;
    m.bytes = room(m.all), m.bytes_out = room(m.all), m.words = room(8 * m.length), m.packed = room(8 * m.length);
    m.distances = room(4 * m.all), m.nears = room(sizeof *m.nears * m.all);
    for (size_t k = 0; k < m.all; k++) m.bytes[k] = every && k % every == every / 2;
    if (clearmap_pack(m.bytes, m.all, &m.in_bytes, m.words, m.all_words, &m.in_bits)) exit(2);
    if (every && clearmap_mark(m.words, m.length, &m.in_bits, m.all_words)) exit(2);
    return m;
}

/* Whether a call has a metric and an edge. */
static bool is_set(int kind) { return kind > 1 && (kind < 14 || kind > 16); }

static void drop(struct map *m) {
    free(m->bytes), free(m->bytes_out), free(m->words), free(m->packed), free(m->distances), free(m->nears);
}

int main(void) {
    static const uint32_t sides[][2] = {{1, 1},   {1, 700},  {64, 64},   {65, 130},
                                        {700, 1}, {300, 200}, {64, 4096}, {4096, 9}};
    static const size_t shares[] = {0, 1, 7, 501};
    unsigned char *stack = mmap(NULL, STACK, PROT_READ | PROT_WRITE,
                                MAP_PRIVATE | MAP_ANONYMOUS | MAP_STACK, -1, 0);
    if (stack == MAP_FAILED) return 2;
    bool is_right = true;
    for (size_t side = 0; side < sizeof sides / sizeof *sides; side++)
        for (size_t share = 0; share < sizeof shares / sizeof *shares; share++) {
            struct map m = make(sides[side][0], sides[side][1], shares[share]);
            for (int kind = 0; kind < CALLS; kind++)
                for (uint32_t setting = 0; setting < (is_set(kind) ? 6 : 1); setting++) {
                    struct task t = {&m, NULL, kind, setting / 2, setting % 2, 0, 0, 0, 0, 0};
                    if (!measure(&t, stack)) is_right = false;
                }
            drop(&m);
        }
    return is_right ? 0 : 1;
}
