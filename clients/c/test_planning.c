/*
 * Tests of the calls that planners make: cells and footprints by the list, costs by a table,
 * rectangles painted and cleared. Answers against those of one call a cell, on maps of awkward
 * sizes whose arrays end at a page that nobody may touch; each status, and what stays as it was.
 *
 *     test_planning [MAPS]      how many random maps, 60 if it is left out
 *
 * Linked with -Wl,--wrap=malloc. Its last line has counts; its status is 1 if one is wrong.
 */
#define _GNU_SOURCE
#include "clearmap.h"

#include "testing.h"

#include <stdbool.h>

/* ---- Memory ---------------------------------------------------------------------------------- */

static long until_refused = -1, requests;
void *__real_malloc(size_t size);
void *__wrap_malloc(size_t size);

void *__wrap_malloc(size_t size) {
    if (until_refused < 0) return __real_malloc(size);
    ++requests;
    return until_refused-- == 0 ? NULL : __real_malloc(size);
}

/* ---- Random maps ----------------------------------------------------------------------------- */

/* A map in bytes and in bits, whose rows may stand apart, with marks of its tiles or without. */
struct map {
    struct guarded bytes_at, words_at;
    clearmap_bytes in_bytes;
    clearmap_bits in_bits;
    uint8_t *bytes;
    uint64_t *words;
    size_t bytes_length, words_length, rows_end;
};

static struct map make(uint32_t width, uint32_t height, uint32_t thousandths) {
    struct map m = {.in_bytes = {width, height, width + draw(4), 1, 255}};
    size_t across = ((size_t)width + 63) / 64, stride = across + draw(3);
    m.bytes_length = (height - 1) * m.in_bytes.stride + width;
    m.rows_end = (height - 1) * stride + across;
    m.words_length = m.rows_end + (draw(3) ? ((size_t)height + 63) / 64 + draw(2) : 0);
    m.bytes_at = guard(m.bytes_length, 1), m.words_at = guard(8 * m.words_length, 8);
    m.bytes = m.bytes_at.place, m.words = m.words_at.place;
    memset(m.words, 0x5A, 8 * m.words_length); /* also past the edge and between the rows */
    m.in_bits = (clearmap_bits){width, height, stride, 0, 0};
    for (uint32_t y = 0; y < height; y++)
        for (uint32_t x = 0; x < width; x++) {
            bool is_dark = draw(1000) < thousandths;
            uint64_t *word = &m.words[y * stride + x / 64], bit = 1ull << (x % 64);
            m.bytes[y * m.in_bytes.stride + x] = is_dark;
            *word = is_dark ? *word | bit : *word & ~bit;
        }
    if (m.words_length > m.rows_end)
        CHECK(!clearmap_mark(m.words, m.words_length, &m.in_bits, m.words_length - ((size_t)height + 63) / 64));
    return m;
}

static void end(struct map m) { unguard(m.bytes_at), unguard(m.words_at); }

static bool is_set(const struct map *m, uint32_t x, uint32_t y) {
    uint64_t marks = m->in_bits.tiles ? m->words[m->in_bits.tiles + y / 64] : 0;
    return (m->words[y * m->in_bits.stride + x / 64] >> (x % 64) & 1)
           && !(m->in_bits.blank_bands >> (y / 64) & 1) && !(marks >> (x / 64) & 1);
}

static bool same(clearmap_near a, clearmap_near b) {
    return a.dist == b.dist && a.x == b.x && a.y == b.y;
}

/* ---- Lists of cells -------------------------------------------------------------------------- */

#define BYTES(m) (m)->bytes, (m)->bytes_length, &(m)->in_bytes
#define WORDS(m) (m)->words, (m)->words_length, &(m)->in_bits

/* Each answer is that of a call for its cell alone; what lies past them stays. */
static void try_cells(const struct map *m, uint32_t metric, uint32_t edge) {
    size_t count = draw(40), room = count + draw(3);
    struct guarded at = guard(count * sizeof(clearmap_cell), 2);
    struct guarded nears_at = guard(room * sizeof(clearmap_near), 4), clear_at = guard(room, 1);
    clearmap_cell *cells = at.place;
    clearmap_near *nears = nears_at.place, near;
    uint8_t *clear = clear_at.place;
    uint32_t d = draw(5) ? draw(60) : UINT32_MAX - draw(2);
    for (size_t k = 0; k < count; k++)
        cells[k] = (clearmap_cell){(uint16_t)draw(m->in_bits.width), (uint16_t)draw(m->in_bits.height)};
    for (int bits = 0; bits < 2; bits++) {
        size_t which = 77;
        memset(nears, 7, room * sizeof *nears), memset(clear, 7, room);
        CHECK(!(bits ? clearmap_bits_at_many(WORDS(m), metric, edge, cells, count, nears, room, &which)
                     : clearmap_bytes_at_many(BYTES(m), metric, edge, cells, count, nears, room,
                                              &which)));
        CHECK(!(bits ? clearmap_bits_clear_many(WORDS(m), metric, edge, cells, count, d, clear, room,
                                                &which)
                     : clearmap_bytes_clear_many(BYTES(m), metric, edge, cells, count, d, clear,
                                                 room, &which)));
        CHECK(which == 77);
        for (size_t k = 0; k < count; k++) {
            CHECK(!clearmap_bytes_at(BYTES(m), metric, edge, cells[k].x, cells[k].y, &near));
            CHECK(same(nears[k], near));
            CHECK(clear[k] == (near.dist == CLEARMAP_NO_OBSTACLE || near.dist >= d));
        }
        for (size_t k = count; k < room; k++) CHECK(nears[k].dist == 0x07070707 && clear[k] == 7);
        if (!count) continue;
        /* A cell outside: which one is told, and nothing is written. */
        size_t bad = draw((uint32_t)count), later = bad + draw((uint32_t)(count - bad));
        clearmap_cell kept[2] = {cells[bad], cells[later]};
        cells[later].y = (uint16_t)(m->in_bits.height + draw(9));
        if (draw(2)) cells[bad].x = (uint16_t)m->in_bits.width;
        else cells[bad].y = UINT16_MAX;
        memset(nears, 7, room * sizeof *nears), memset(clear, 7, room);
        for (int kind = 0; kind < 2; kind++) {
            which = 77;
            size_t fewer = draw(2) ? room : 0; /* too little room comes after it */
            CHECK((kind ? bits ? clearmap_bits_at_many(WORDS(m), metric, edge, cells, count, nears,
                                                       fewer, &which)
                               : clearmap_bytes_at_many(BYTES(m), metric, edge, cells, count, nears,
                                                        fewer, &which)
                   : bits ? clearmap_bits_clear_many(WORDS(m), metric, edge, cells, count, d, clear,
                                                     fewer, &which)
                          : clearmap_bytes_clear_many(BYTES(m), metric, edge, cells, count, d,
                                                      clear, fewer, &which)) == CLEARMAP_OUTSIDE);
            CHECK(which == bad);
        }
        cells[later] = kept[1], cells[bad] = kept[0];
        which = 77;
        CHECK((bits ? clearmap_bits_at_many(WORDS(m), metric, edge, cells, count, nears, count - 1,
                                            &which)
                    : clearmap_bytes_at_many(BYTES(m), metric, edge, cells, count, nears, count - 1,
                                             &which)) == CLEARMAP_ROOM);
        CHECK((bits ? clearmap_bits_clear_many(WORDS(m), metric, edge, cells, count, d, clear,
                                               count - 1, &which)
                    : clearmap_bytes_clear_many(BYTES(m), metric, edge, cells, count, d, clear,
                                                count - 1, &which)) == CLEARMAP_ROOM);
        CHECK(which == 77);
        for (size_t k = 0; k < room; k++) CHECK(nears[k].dist == 0x07070707 && clear[k] == 7);
    }
    unguard(at), unguard(nears_at), unguard(clear_at);
}

/* ---- Costs ----------------------------------------------------------------------------------- */

/* Each cost is that of the cell's distance, by tables of one entry and of more than are needed. */
static void try_costs(const struct map *m, uint32_t metric, uint32_t edge) {
    uint32_t width = m->in_bits.width, height = m->in_bits.height;
    uint32_t y0 = draw(height + 1), y1 = y0 + draw(height + 1 - y0);
    size_t count = (size_t)(y1 - y0) * width, room = count + draw(3);
    const size_t lengths[] = {1, 2, 1 + draw(30), 1 + draw(3000)};
    size_t length = lengths[draw(4)];
    struct guarded table_at = guard(length, 1), costs_at = guard(room, 1);
    uint8_t *table = table_at.place, *costs = costs_at.place;
    uint32_t *distances = malloc(4 * count + 4);
    if (!distances) exit(2);
    for (size_t k = 0; k < length; k++) table[k] = (uint8_t)draw(256);
    CHECK(!clearmap_bits_distances(WORDS(m), metric, edge, y0, y1, distances, count));
    for (int bits = 0; bits < 2; bits++) {
        memset(costs, 7, room);
        CHECK(!(bits ? clearmap_bits_costs(WORDS(m), metric, edge, table, length, y0, y1, costs, room)
                     : clearmap_bytes_costs(BYTES(m), metric, edge, table, length, y0, y1, costs,
                                            room)));
        for (size_t k = 0; k < count; k++)
            CHECK(costs[k] == table[distances[k] < length ? distances[k] : length - 1]);
        for (size_t k = count; k < room; k++) CHECK(costs[k] == 7);
        memset(costs, 7, room);
        CHECK((bits ? clearmap_bits_costs(WORDS(m), metric, edge, table, 0, y0, y1, costs, room)
                    : clearmap_bytes_costs(BYTES(m), metric, edge, table, 0, y0, y1, costs, room))
              == CLEARMAP_COSTS);
        if (count)
            CHECK((bits ? clearmap_bits_costs(WORDS(m), metric, edge, table, length, y0, y1, costs,
                                              count - 1)
                        : clearmap_bytes_costs(BYTES(m), metric, edge, table, length, y0, y1, costs,
                                               count - 1)) == CLEARMAP_ROOM);
        for (size_t k = 0; k < room; k++) CHECK(costs[k] == 7);
    }
    free(distances);
    unguard(table_at), unguard(costs_at);
}

/* ---- Rectangles ------------------------------------------------------------------------------ */

/* A rectangle painted or cleared: its cells alone change, and no word that isn't the map's. */
static void try_rectangle(struct map *m, bool paints) {
    uint32_t width = m->in_bits.width, height = m->in_bits.height;
    uint32_t x0 = draw(width), y0 = draw(height);
    uint32_t x1 = x0 + 1 + draw(draw(2) ? width - x0 : 1), y1 = y0 + 1 + draw(height - y0);
    size_t size = 8 * m->words_length, across = ((size_t)width + 63) / 64;
    uint64_t *before = malloc(size);
    bool *want = malloc((size_t)width * height);
    if (!before || !want) exit(2);
    memcpy(before, m->words, size);
    for (uint32_t y = 0; y < height; y++)
        for (uint32_t x = 0; x < width; x++) {
            bool is_inside = x0 <= x && x < x1 && y0 <= y && y < y1;
            want[(size_t)y * width + x] = is_inside ? paints : is_set(m, x, y);
        }
    clearmap_bits layout = m->in_bits;
    CHECK(!(paints ? clearmap_paint(m->words, m->words_length, &m->in_bits, x0, y0, x1, y1)
                   : clearmap_clear(m->words, m->words_length, &m->in_bits, x0, y0, x1, y1)));
    CHECK(m->in_bits.width == width && m->in_bits.height == height);
    CHECK(m->in_bits.stride == layout.stride && m->in_bits.tiles == layout.tiles);
    CHECK(paints || m->in_bits.blank_bands == layout.blank_bands);
    CHECK((m->in_bits.blank_bands & ~layout.blank_bands) == 0);
    for (uint32_t y = 0; y < height; y++)
        for (uint32_t x = 0; x < width; x++)
            CHECK(is_set(m, x, y) == want[(size_t)y * width + x]);
    for (size_t k = 0; k < m->words_length; k++) {
        bool is_row = k / m->in_bits.stride < height && k % m->in_bits.stride < across;
        bool is_mark = layout.tiles && k >= layout.tiles && k < layout.tiles + (height + 63) / 64;
        CHECK(is_row || (is_mark && paints) || m->words[k] == before[k]);
    }
    free(before), free(want);
}

/* Marks that hide bits: of bands, and of tiles where those have marks. */
static void hide(struct map *m) {
    if (draw(2)) m->in_bits.blank_bands |= 1ull << draw((m->in_bits.height + 63) / 64);
    if (m->in_bits.tiles && draw(2))
        m->words[m->in_bits.tiles + draw((m->in_bits.height + 63) / 64)]
            |= 1ull << draw((m->in_bits.width + 63) / 64);
}

/* After paint and clear, queries find what a map without marks has. */
static void try_rectangles(struct map *m) {
    for (int k = 0; k < 6; k++) {
        if (draw(2)) hide(m);
        try_rectangle(m, draw(3) > 0);
        uint32_t x = draw(m->in_bits.width), y = draw(m->in_bits.height);
        clearmap_near near;
        CHECK(!clearmap_bits_at(WORDS(m), CLEARMAP_CITY, CLEARMAP_OPEN, x, y, &near));
        CHECK(near.dist == 0 ? is_set(m, x, y) : !is_set(m, x, y));
        CHECK(near.dist == CLEARMAP_NO_OBSTACLE || is_set(m, (uint32_t)near.x, (uint32_t)near.y));
    }
}

/* ---- Statuses -------------------------------------------------------------------------------- */

/* What a call is given; each try changes what it says is wrong. */
struct given {
    uint32_t width, height, metric, edge, x0, y0, x1, y1;
    size_t stride, length, tiles, entries, room;
    uint8_t low;
};

static const struct given right = {3, 2, 0, 0, 0, 0, 3, 2, 1, 2, 0, 1, 6, 1};

enum { LISTS = 1, COSTS = 2, RECTS = 4, ALL = LISTS | COSTS | RECTS };

/* Makes calls of some kinds; each has this status and, unless it is DONE, has written nothing. */
static void refuse(struct given g, int kinds, uint32_t status) {
    uint8_t bytes[6] = {0, 1, 0, 0, 0, 0}, table[1] = {9}, costs[6], clear[6];
    uint64_t words[2] = {2, 0};
    clearmap_cell cells[2] = {{0, 0}, {(uint16_t)g.x0, (uint16_t)g.y0}};
    clearmap_near nears[6];
    size_t which = 77;
    clearmap_bytes by = {g.width, g.height, 3 * g.stride, g.low, 1};
    clearmap_bits bi = {g.width, g.height, g.stride, 2, g.tiles}, kept = bi;
    bool is_turned = g.low > 1, has_tiles = status == CLEARMAP_TILES; /* not in bits, nor in bytes */
    memset(nears, 7, sizeof nears), memset(costs, 7, sizeof costs), memset(clear, 7, sizeof clear);
    uint32_t m = g.metric, e = g.edge;
    if (kinds & LISTS && !has_tiles) {
        CHECK(clearmap_bytes_at_many(bytes, 3 * g.length, &by, m, e, cells, 2, nears, g.room, &which)
              == status);
        CHECK(clearmap_bytes_clear_many(bytes, 3 * g.length, &by, m, e, cells, 2, 1, clear, g.room,
                                        &which) == status);
    }
    if (kinds & LISTS && !is_turned) {
        CHECK(clearmap_bits_at_many(words, g.length, &bi, m, e, cells, 2, nears, g.room, &which)
              == status);
        CHECK(clearmap_bits_clear_many(words, g.length, &bi, m, e, cells, 2, 1, clear, g.room,
                                       &which) == status);
    }
    CHECK(which == (kinds & LISTS && status == CLEARMAP_OUTSIDE ? 1 : 77));
    if (kinds & COSTS && !has_tiles)
        CHECK(clearmap_bytes_costs(bytes, 3 * g.length, &by, m, e, table, g.entries, g.y0, g.y1,
                                   costs, g.room) == status);
    if (kinds & COSTS && !is_turned)
        CHECK(clearmap_bits_costs(words, g.length, &bi, m, e, table, g.entries, g.y0, g.y1, costs,
                                  g.room) == status);
    if (kinds & RECTS) {
        CHECK(clearmap_paint(words, g.length, &bi, g.x0, g.y0, g.x1, g.y1) == status);
        CHECK(clearmap_clear(words, g.length, &bi, g.x0, g.y0, g.x1, g.y1) == status);
    }
    if (status == CLEARMAP_DONE) return;
    CHECK(nears[0].dist == 0x07070707 && costs[0] == 7 && clear[0] == 7);
    CHECK(words[0] == 2 && words[1] == 0 && !memcmp(&bi, &kept, sizeof bi));
}

#define REFUSE(kinds, status, ...)   \
    do {                             \
        struct given g = right;      \
        __VA_ARGS__;                 \
        refuse(g, kinds, status);    \
    } while (0)

static void try_statuses(void) {
    REFUSE(ALL, CLEARMAP_DONE, (void)0);
    REFUSE(ALL, CLEARMAP_SIZE, g.width = 0; g.stride = 0; g.metric = 9);
    REFUSE(ALL, CLEARMAP_SIZE, g.height = 4097; g.length = 1);
    REFUSE(ALL, CLEARMAP_STRIDE, g.stride = 0; g.length = 1; g.x1 = 9);
    REFUSE(ALL, CLEARMAP_LENGTH, g.length = 1; g.tiles = 1; g.metric = 3);
    REFUSE(ALL, CLEARMAP_TILES, g.tiles = 1; g.metric = 3; g.x0 = 3);
    REFUSE(ALL, CLEARMAP_TILES, g.tiles = SIZE_MAX; g.y1 = 0);
    REFUSE(LISTS | COSTS, CLEARMAP_METRIC, g.metric = 3; g.edge = 2; g.entries = 0; g.y1 = 9);
    REFUSE(LISTS | COSTS, CLEARMAP_EDGE, g.edge = UINT32_MAX; g.entries = 0; g.x0 = 3; g.y0 = 9);
    REFUSE(COSTS, CLEARMAP_COSTS, g.entries = 0; g.y1 = 3; g.room = 0; g.low = 2);
    REFUSE(LISTS | RECTS, CLEARMAP_OUTSIDE, g.x0 = 3; g.room = 0; g.low = 2);
    REFUSE(LISTS, CLEARMAP_OUTSIDE, g.y0 = 2; g.room = 0);
    REFUSE(COSTS | RECTS, CLEARMAP_OUTSIDE, g.y1 = 3; g.room = 0; g.low = 2);
    REFUSE(COSTS | RECTS, CLEARMAP_OUTSIDE, g.y0 = 1; g.y1 = 0);
    REFUSE(RECTS, CLEARMAP_OUTSIDE, g.y0 = 1; g.y1 = 1);
    REFUSE(RECTS, CLEARMAP_OUTSIDE, g.x1 = 4);
    REFUSE(RECTS, CLEARMAP_OUTSIDE, g.x1 = UINT32_MAX);
    REFUSE(RECTS, CLEARMAP_OUTSIDE, g.x0 = 2; g.x1 = 2);
    REFUSE(LISTS, CLEARMAP_ROOM, g.room = 1; g.low = 2);
    REFUSE(COSTS, CLEARMAP_ROOM, g.room = 5; g.low = 2);
    REFUSE(LISTS | COSTS, CLEARMAP_RANGE, g.low = 2);
    REFUSE(COSTS, CLEARMAP_DONE, g.y0 = 2; g.room = 0);
}

/* Each request of a call for costs refused in turn; the other calls make none. */
static long try_memory(void) {
    static const clearmap_bytes by = {3, 2, 3, 1, 1};
    static const clearmap_bits bi = {3, 2, 1, 0, 0};
    static const uint8_t bytes[6] = {0, 1, 0, 0, 0, 0}, table[2] = {5, 6};
    static const uint64_t words[2] = {2, 0};
    long refused = 0;
    for (int bits = 0; bits < 2; bits++)
        for (long k = 0;; k++) {
            uint8_t costs[6] = {7};
            until_refused = k, requests = 0;
            uint32_t status = bits ? clearmap_bits_costs(words, 2, &bi, 0, 1, table, 2, 0, 2, costs, 6)
                                   : clearmap_bytes_costs(bytes, 6, &by, 0, 1, table, 2, 0, 2, costs,
                                                          6);
            until_refused = -1;
            if (requests <= k) {
                CHECK(status == CLEARMAP_DONE && k > 0 && costs[0] == 6 && costs[1] == 5);
                break;
            }
            CHECK(status == CLEARMAP_MEMORY && costs[0] == 7);
            refused++;
        }
    until_refused = 0, requests = 0;
    REFUSE(LISTS | RECTS, CLEARMAP_DONE, (void)0);
    REFUSE(LISTS | COSTS, CLEARMAP_RANGE, g.low = 2);
    CHECK(requests == 0);
    until_refused = -1;
    return refused;
}

int main(int argc, char **argv) {
    static const uint32_t shares[] = {0, 2, 50, 600, 1000};
    int maps = argc > 1 ? atoi(argv[1]) : 60;
    try_statuses();
    long refused = try_memory();
    for (int t = 0; t < maps; t++) {
        struct map m = make(1 + draw(140), 1 + draw(140), shares[t % 5]);
        for (uint32_t setting = 0; setting < 6; setting++) {
            try_cells(&m, setting / 2, setting % 2);
            try_costs(&m, setting / 2, setting % 2);
        }
        try_rectangles(&m);
        end(m);
    }
    printf("test_planning: %ld checks, %ld requests refused, %ld wrong\n", tried, refused, wrong);
    return wrong != 0;
}
