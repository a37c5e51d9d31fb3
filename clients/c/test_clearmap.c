/*
 * Tests of libclearmap from C: each status of each call, answers against a search of all obstacles,
 * what is left as it was, each request for memory refused in turn, threads on bands of one map.
 *
 *     test_clearmap [MAPS]      how many random maps, 40 if it is left out; with over 5 also the
 *                               largest map
 *
 * Linked with -Wl,--wrap=malloc. Its last line has counts; its status is 1 if one is wrong.
 */
#define _GNU_SOURCE
#include "clearmap.h"
#include "testing.h"

#include <pthread.h>
#include <stdbool.h>

/* ---- malloc, which refuses the request of a number ------------------------------------------- */

static long until_refused = -1, requests;
void *__real_malloc(size_t size);
void *__wrap_malloc(size_t size);

void *__wrap_malloc(size_t size) {
    if (until_refused < 0) return __real_malloc(size);
    ++requests;
    return until_refused-- == 0 ? NULL : __real_malloc(size);
}

static void *room(size_t size) {
    void *place = malloc(size ? size : 1);
    if (!place) exit(2);
    return place;
}

/* ---- Random maps, and what is right ---------------------------------------------------------- */

/* A map in bytes, whose rows stand apart; the bytes between them look like obstacles. */
struct map {
    clearmap_bytes in_bytes;
    uint8_t *bytes;
    size_t length;
    clearmap_bits in_bits;
    uint64_t *words;
    size_t words_length;
};

static int is_obstacle(const struct map *m, int x, int y) {
    uint8_t byte = m->bytes[(size_t)y * m->in_bytes.stride + (size_t)x];
    return m->in_bytes.low <= byte && byte <= m->in_bytes.high;
}

static void make_bytes(struct map *m, uint32_t width, uint32_t height, uint32_t thousandths) {
    m->in_bytes = (clearmap_bytes){.width = width, .height = height, .stride = width + draw(9),
                                   .low = (uint8_t)(1 + draw(200)), .high = 0};
    m->in_bytes.high = (uint8_t)(m->in_bytes.low + draw(256u - m->in_bytes.low));
    m->length = (height - 1) * m->in_bytes.stride + width;
    m->bytes = room(m->length);
    memset(m->bytes, m->in_bytes.low, m->length);
    for (uint32_t y = 0; y < height; y++)
        for (uint32_t x = 0; x < width; x++) {
            uint32_t span = (uint32_t)(m->in_bytes.high - m->in_bytes.low) + 1;
            int dark = draw(1000) < thousandths;
            uint8_t light = draw(2) || m->in_bytes.high == 255 ? (uint8_t)(m->in_bytes.low - 1)
                                                               : (uint8_t)(m->in_bytes.high + 1);
            m->bytes[y * m->in_bytes.stride + x] =
                dark ? (uint8_t)(m->in_bytes.low + draw(span)) : light;
        }
}

/* Marks the map's blank tiles from an index on; no other word changes. */
static void mark_tiles(struct map *m, size_t tiles) {
    uint32_t width = m->in_bytes.width, height = m->in_bytes.height;
    size_t bands = ((size_t)height + 63) / 64;
    uint64_t want[64], *before = room(8 * m->words_length);
    memcpy(before, m->words, 8 * m->words_length);
    memset(want, 0xff, sizeof want);
    for (uint32_t y = 0; y < height; y++)
        for (uint32_t x = 0; x < width; x++)
            if (is_obstacle(m, (int)x, (int)y)) want[y / 64] &= ~(1ull << (x / 64));
    clearmap_bits bits = m->in_bits;
    bits.blank_bands = 0;
    CHECK(!clearmap_mark(m->words, m->words_length, &bits, tiles));
    CHECK(bits.blank_bands == m->in_bits.blank_bands && bits.tiles == tiles);
    CHECK(bits.width == width && bits.height == height && bits.stride == m->in_bits.stride);
    CHECK(!memcmp(m->words + tiles, want, 8 * bands));
    memcpy(before + tiles, want, 8 * bands);
    CHECK(!memcmp(before, m->words, 8 * m->words_length));
    m->in_bits = bits;
    free(before);
}

/*
 * The same map in bits, whose rows stand apart; the bits past the edge and between rows are 1. Half
 * of the maps have marks of tiles.
 */
static void make_bits(struct map *m) {
    uint32_t width = m->in_bytes.width, height = m->in_bytes.height;
    size_t across = ((size_t)width + 63) / 64, stride = across + draw(3);
    uint64_t *packed = room(8 * across * height);
    clearmap_bits bits;
    CHECK(clearmap_pack(m->bytes, m->length, &m->in_bytes, packed, across * height, &bits) == 0);
    CHECK(bits.width == width && bits.height == height && bits.stride == across);
    size_t rows_end = (height - 1) * stride + across, bands_down = ((size_t)height + 63) / 64;
    m->words_length = rows_end + (draw(2) ? bands_down + draw(3) : 0);
    m->words = room(8 * m->words_length);
    memset(m->words, 0xff, 8 * m->words_length);
    uint64_t bands = 0;
    for (uint32_t y = 0; y < height; y++) {
        for (size_t k = 0; k < across; k++) m->words[y * stride + k] = packed[y * across + k];
        if (width % 64) {
            CHECK(packed[(y + 1) * across - 1] >> (width % 64) == 0);
            m->words[y * stride + across - 1] |= ~0ull << (width % 64);
        }
        for (uint32_t x = 0; x < width; x++) {
            int bit = (int)(packed[y * across + x / 64] >> (x % 64) & 1);
            CHECK(bit == is_obstacle(m, (int)x, (int)y));
            if (bit) bands |= 1ull << (y / 64);
        }
    }
    CHECK(bits.blank_bands == ~bands); /* each band without an obstacle is said to be blank */
    CHECK(bits.tiles == 0);
    bits.stride = stride;
    m->in_bits = bits;
    if (m->words_length > rows_end) mark_tiles(m, m->words_length - bands_down);
    free(packed);
}

static void drop(struct map *m) {
    free(m->bytes);
    free(m->words);
}

static long measure(int metric, long dx, long dy) {
    return metric == CLEARMAP_EUCLID2 ? dx * dx + dy * dy
           : metric == CLEARMAP_CITY  ? dx + dy
                                      : (dx > dy ? dx : dy);
}

/* The nearest obstacle, by a search of all cells, column by column. */
static clearmap_near search(const struct map *m, int metric, int edge, int x, int y) {
    int width = (int)m->in_bytes.width, height = (int)m->in_bytes.height;
    clearmap_near best = {CLEARMAP_NO_OBSTACLE, CLEARMAP_NOWHERE, CLEARMAP_NOWHERE};
    long least = -1, rows = 0;
    for (int a = -1; a <= width; a++)
        for (int b = -1; b <= height; b++) {
            int inside = a >= 0 && a < width && b >= 0 && b < height;
            if (inside ? !is_obstacle(m, a, b) : edge == CLEARMAP_OPEN) continue;
            long dy = labs(y - b), dist = measure(metric, labs(x - a), dy);
            if (least < 0 || dist < least || (dist == least && a == best.x && dy < rows)) {
                least = dist;
                rows = dy;
                best = (clearmap_near){(uint32_t)dist, (int16_t)a, (int16_t)b};
            }
        }
    return best;
}

static int same(clearmap_near a, clearmap_near b) {
    return a.dist == b.dist && a.x == b.x && a.y == b.y;
}

static const clearmap_near untouched = {7, 7, 7};
static const clearmap_found untouched_found = {{7, 7}, {7, 7, 7}};

static int stays(clearmap_found found) {
    return found.cell.x == 7 && found.cell.y == 7 && same(found.near, untouched);
}

/* ---- Answers --------------------------------------------------------------------------------- */

/* All cells of some rows, from bytes and bits, against the table; the item after them stays. */
static void try_rows(const struct map *m, uint32_t metric, uint32_t edge, clearmap_near *table) {
    uint32_t width = m->in_bytes.width, height = m->in_bytes.height;
    size_t all = (size_t)width * height;
    CHECK(clearmap_bytes_nearest(m->bytes, m->length, &m->in_bytes, metric, edge, 0, height, table,
                                 all) == CLEARMAP_DONE);
    uint32_t y0 = draw(height + 1), y1 = y0 + draw(height + 1 - y0);
    size_t count = (size_t)(y1 - y0) * width;
    clearmap_near *nears = room(sizeof *nears * (count + 1));
    uint32_t *distances = room(sizeof *distances * (count + 1));
    for (int bits = 0; bits < 2; bits++) {
        nears[count] = untouched;
        distances[count] = 7;
        if (bits) {
            CHECK(!clearmap_bits_nearest(m->words, m->words_length, &m->in_bits, metric, edge, y0,
                                         y1, nears, count + 1));
            CHECK(!clearmap_bits_distances(m->words, m->words_length, &m->in_bits, metric, edge, y0,
                                           y1, distances, count + 1));
        } else {
            CHECK(!clearmap_bytes_nearest(m->bytes, m->length, &m->in_bytes, metric, edge, y0, y1,
                                          nears, count + 1));
            CHECK(!clearmap_bytes_distances(m->bytes, m->length, &m->in_bytes, metric, edge, y0, y1,
                                            distances, count + 1));
        }
        for (size_t k = 0; k < count; k++) {
            CHECK(same(nears[k], table[(size_t)y0 * width + k]));
            CHECK(distances[k] == table[(size_t)y0 * width + k].dist);
        }
        CHECK(same(nears[count], untouched) && distances[count] == 7);
    }
    free(nears);
    free(distances);
}

/* The first least cell of a rectangle, by the table of all cells. */
static clearmap_found least_of(const clearmap_near *table, uint32_t width, uint32_t x0, uint32_t y0,
                               uint32_t x1, uint32_t y1) {
    clearmap_found best = {{0, 0}, {CLEARMAP_NO_OBSTACLE, CLEARMAP_NOWHERE, CLEARMAP_NOWHERE}};
    for (uint32_t y = y0; y < y1; y++)
        for (uint32_t x = x0; x < x1; x++)
            if (table[y * width + x].dist < best.near.dist)
                best = (clearmap_found){{(uint16_t)x, (uint16_t)y}, table[y * width + x]};
    return best;
}

static int same_found(clearmap_found a, clearmap_found b) {
    int none = b.near.dist == CLEARMAP_NO_OBSTACLE;
    return same(a.near, b.near) && (none || (a.cell.x == b.cell.x && a.cell.y == b.cell.y));
}

static void try_cell(const struct map *m, uint32_t metric, uint32_t edge,
                     const clearmap_near *table) {
    uint32_t width = m->in_bytes.width, height = m->in_bytes.height;
    uint32_t x = draw(width), y = draw(height);
    clearmap_near want = search(m, (int)metric, (int)edge, (int)x, (int)y), near = untouched;
    CHECK(same(table[y * width + x], want));
    CHECK(!clearmap_bytes_at(m->bytes, m->length, &m->in_bytes, metric, edge, x, y, &near));
    CHECK(same(near, want));
    near = untouched;
    CHECK(!clearmap_bits_at(m->words, m->words_length, &m->in_bits, metric, edge, x, y, &near));
    CHECK(same(near, want));
}

static void try_rect(const struct map *m, uint32_t metric, uint32_t edge,
                     const clearmap_near *table) {
    uint32_t width = m->in_bytes.width, height = m->in_bytes.height;
    uint32_t x0 = draw(width), y0 = draw(height);
    uint32_t x1 = x0 + 1 + draw(width - x0), y1 = y0 + 1 + draw(height - y0);
    clearmap_found want = least_of(table, width, x0, y0, x1, y1), found = untouched_found;
    CHECK(!clearmap_bytes_rect(m->bytes, m->length, &m->in_bytes, metric, edge, x0, y0, x1, y1,
                               &found));
    CHECK(same_found(found, want));
    found = untouched_found;
    CHECK(!clearmap_bits_rect(m->words, m->words_length, &m->in_bits, metric, edge, x0, y0, x1, y1,
                              &found));
    CHECK(same_found(found, want));
}

/* A path of two legs: its first least cell, and its first cell below d. */
static void try_path(const struct map *m, uint32_t metric, uint32_t edge,
                     const clearmap_near *table) {
    uint32_t width = m->in_bytes.width, height = m->in_bytes.height, d = draw(40);
    uint16_t x = (uint16_t)draw(width), y = (uint16_t)draw(height);
    uint16_t x1 = (uint16_t)draw(width), y1 = (uint16_t)draw(height);
    clearmap_cell path[3] = {{x, y}, {x1, y}, {x1, y1}};
    const clearmap_found none = {{0, 0},
                                 {CLEARMAP_NO_OBSTACLE, CLEARMAP_NOWHERE, CLEARMAP_NOWHERE}};
    clearmap_found least = none, below = none, found;
    for (;;) {
        clearmap_near near = table[y * width + x];
        if (near.dist < least.near.dist) least = (clearmap_found){{x, y}, near};
        if (near.dist < d && below.near.dist == CLEARMAP_NO_OBSTACLE)
            below = (clearmap_found){{x, y}, near};
        if (x != x1) x = (uint16_t)(x < x1 ? x + 1 : x - 1);
        else if (y != y1) y = (uint16_t)(y < y1 ? y + 1 : y - 1);
        else break;
    }
    CHECK(!clearmap_bytes_path(m->bytes, m->length, &m->in_bytes, metric, edge, path, 3, &found));
    CHECK(same_found(found, least));
    CHECK(!clearmap_bits_path(m->words, m->words_length, &m->in_bits, metric, edge, path, 3,
                              &found));
    CHECK(same_found(found, least));
    CHECK(!clearmap_bytes_clear_of(m->bytes, m->length, &m->in_bytes, metric, edge, path, 3, d,
                                   &found));
    CHECK(same_found(found, below));
    CHECK(!clearmap_bits_clear_of(m->words, m->words_length, &m->in_bits, metric, edge, path, 3, d,
                                  &found));
    CHECK(same_found(found, below));
}

static void try_unpack(const struct map *m) {
    uint32_t width = m->in_bytes.width, height = m->in_bytes.height;
    size_t all = (size_t)width * height;
    uint8_t *bytes = room(all + 1);
    bytes[all] = 77;
    CHECK(!clearmap_unpack(m->words, m->words_length, &m->in_bits, 200, 3, bytes, all + 1));
    for (uint32_t y = 0; y < height; y++)
        for (uint32_t x = 0; x < width; x++)
            CHECK(bytes[y * width + x] == (is_obstacle(m, (int)x, (int)y) ? 3 : 200));
    CHECK(bytes[all] == 77);
    free(bytes);
}

/* A band whose bit is 1 is blank, whatever its words say; where the field is left out, none is. */
static void try_bands(const struct map *m) {
    clearmap_bits blank = m->in_bits;
    blank.blank_bands = UINT64_MAX;
    clearmap_near near;
    CHECK(!clearmap_bits_at(m->words, m->words_length, &blank, 0, CLEARMAP_OPEN, 0, 0, &near));
    CHECK(near.dist == CLEARMAP_NO_OBSTACLE && near.x == CLEARMAP_NOWHERE);
    clearmap_bits left_out = {.width = m->in_bits.width,
                              .height = m->in_bits.height,
                              .stride = m->in_bits.stride};
    clearmap_near want = search(m, 0, 0, 0, 0);
    CHECK(!clearmap_bits_at(m->words, m->words_length, &left_out, 0, CLEARMAP_OPEN, 0, 0, &near));
    CHECK(same(near, want));
    clearmap_found least, found = untouched_found;
    CHECK(!clearmap_bits_rect(m->words, m->words_length, &m->in_bits, 0, CLEARMAP_OPEN, 0, 0,
                              left_out.width, left_out.height, &least));
    CHECK(!clearmap_bits_rect(m->words, m->words_length, &left_out, 0, CLEARMAP_OPEN, 0, 0,
                              left_out.width, left_out.height, &found));
    CHECK(same_found(found, least));
}

/* A tile whose mark is 1 is blank, whatever its words say, and the others are as they were. */
static void try_tiles(const struct map *m) {
    if (m->in_bits.tiles == 0) return;
    clearmap_bits bits = m->in_bits;
    uint32_t width = bits.width, height = bits.height;
    uint64_t *words = room(8 * m->words_length);
    uint8_t *cells = room((size_t)width * height);
    memcpy(words, m->words, 8 * m->words_length);
    words[bits.tiles] = 1;
    CHECK(!clearmap_unpack(words, m->words_length, &bits, 200, 3, cells, (size_t)width * height));
    for (uint32_t y = 0; y < height; y++)
        for (uint32_t x = 0; x < width; x++) {
            int is_marked = x < 64 && y < 64;
            CHECK(cells[y * width + x]
                  == (is_obstacle(m, (int)x, (int)y) && !is_marked ? 3 : 200));
        }
    /* Marked anew, the tile is blank still, and each cell as before. */
    CHECK(!clearmap_mark(words, m->words_length, &bits, bits.tiles) && (words[bits.tiles] & 1));
    uint8_t *again = room((size_t)width * height);
    CHECK(!clearmap_unpack(words, m->words_length, &bits, 200, 3, again, (size_t)width * height));
    CHECK(!memcmp(again, cells, (size_t)width * height));
    free(words);
    free(cells);
    free(again);
}

/* What is set in a marked tile stays hidden, however often the map is marked, unless its marks and
 * its bands are left out. */
static void try_marks_anew(void) {
    static const struct {
        bool leaves_tiles, leaves_bands;
        uint32_t dist;
    } rows[] = {
        {false, false, CLEARMAP_NO_OBSTACLE},
        {true, false, CLEARMAP_NO_OBSTACLE},
        {false, true, CLEARMAP_NO_OBSTACLE},
        {true, true, 25},
    };
    for (size_t k = 0; k < sizeof rows / sizeof *rows; k++) {
        uint64_t map[132] = {0};
        clearmap_bits bits = {.width = 65, .height = 65, .stride = 2};
        clearmap_near near;
        CHECK(!clearmap_mark(map, 132, &bits, 130) && bits.tiles == 130);
        map[2 * 3] |= 1u << 4;
        if (rows[k].leaves_tiles) bits.tiles = 0;
        if (rows[k].leaves_bands) bits.blank_bands = 0;
        CHECK(!clearmap_mark(map, 132, &bits, 130) && bits.tiles == 130);
        CHECK(!clearmap_bits_at(map, 132, &bits, CLEARMAP_EUCLID2, CLEARMAP_OPEN, 8, 0, &near));
        CHECK(near.dist == rows[k].dist);
    }
}

/* The d of a radius: never too small, 2 or more, and what no path is clear of where there is no
 * radius, as by a double whose bits are those of no number. */
static void try_radii(void) {
    const double none = strtod("nan", NULL), infinite = strtod("inf", NULL);
    const struct {
        double radius, resolution;
        uint32_t d;
    } rows[] = {
        {0, 0.05, 2}, {-0.0, 0.05, 2}, {0.1, 0.05, 12}, {0.22, 0.05, 34}, {2, 1, 12},
        {1e-300, 1, 2}, {1e-9, 1, 3}, {0.41421356, 1, 4}, {0.41421357, 1, 4}, {0.8, 1, 5},
        {4095, 1, 16780610}, {64999, 1, 4225053848u}, {65000, 1, UINT32_MAX},
        {1e308, 1e-300, UINT32_MAX}, {none, 0.05, UINT32_MAX}, {-none, 0.05, UINT32_MAX},
        {infinite, 0.05, UINT32_MAX}, {-infinite, 0.05, UINT32_MAX}, {-0.001, 0.05, UINT32_MAX},
        {-1e-320, 1, UINT32_MAX}, {0.2, 0, UINT32_MAX}, {0.2, -0.0, UINT32_MAX},
        {0.2, -0.05, UINT32_MAX}, {0.2, none, UINT32_MAX}, {0, infinite, UINT32_MAX},
        {0, 0, UINT32_MAX}, {infinite, infinite, UINT32_MAX}, {none, none, UINT32_MAX},
        {0, 1e-320, UINT32_MAX},
    };
    for (size_t k = 0; k < sizeof rows / sizeof *rows; k++) {
        uint32_t d = clearmap_clear_distance(rows[k].radius, rows[k].resolution);
        if (d != rows[k].d) printf("row %zu: %u, not %u\n", k, (unsigned)d, (unsigned)rows[k].d);
        CHECK(d == rows[k].d);
    }
}

static void try_maps(int maps) {
    static const uint32_t shares[] = {0, 2, 50, 600, 1000};
    for (int t = 0; t < maps; t++) {
        struct map m;
        make_bytes(&m, 1 + draw(140), 1 + draw(140), shares[t % 5]);
        make_bits(&m);
        clearmap_near *table = room(sizeof *table * m.in_bytes.width * m.in_bytes.height);
        for (uint32_t metric = 0; metric < 3; metric++)
            for (uint32_t edge = 0; edge < 2; edge++) {
                try_rows(&m, metric, edge, table);
                for (int k = 0; k < 12; k++) {
                    try_cell(&m, metric, edge, table);
                    try_rect(&m, metric, edge, table);
                    try_path(&m, metric, edge, table);
                }
            }
        try_unpack(&m);
        try_bands(&m);
        try_tiles(&m);
        free(table);
        drop(&m);
    }
}

/* ---- Statuses -------------------------------------------------------------------------------- */

/* What a call of any kind is given; each try changes what it says is wrong. */
struct given {
    uint32_t width, height, metric, edge, x0, y0, x1, y1;
    size_t stride, length, points_length, count;
    clearmap_cell points[3];
    uint8_t low, high;
};

static const uint8_t small_bytes[6] = {0, 1, 0, 0, 0, 0};
static const uint64_t small_words[2] = {2, 0};
static const struct given right = {3, 2, 0, 0, 1, 0, 3, 2, 0, 0, 3, 6, {{0, 0}, {2, 0}, {2, 1}},
                                  1, 1};

enum { AT = 1, RECT = 2, PATH = 4, ROWS = 8, QUERIES = AT | RECT | PATH, ALL = QUERIES | ROWS };

/* Checks the status of a call over bits, which has no range of bytes. */
#define OVER_BITS(call) CHECK(g.low > g.high || (call) == status)

/* Makes calls of some kinds over bytes and over bits; each has this status, and writes nothing. */
static void refuse(struct given g, int kinds, uint32_t status) {
    clearmap_near near = untouched, nears[6] = {{7, 7, 7}};
    clearmap_found found = untouched_found;
    uint32_t distances[6] = {7};
    clearmap_bytes by = {g.width, g.height, g.stride ? g.stride : 3, g.low, g.high};
    clearmap_bits bi = {g.width, g.height, g.stride ? g.stride / 3 : 1, 0, 0};
    size_t lb = g.length ? g.length : 6, li = g.length ? g.length / 5 : 2;
    uint32_t m = g.metric, e = g.edge;
    if (kinds & AT) {
        CHECK(clearmap_bytes_at(small_bytes, lb, &by, m, e, g.x0, g.y0, &near) == status);
        OVER_BITS(clearmap_bits_at(small_words, li, &bi, m, e, g.x0, g.y0, &near));
    }
    if (kinds & RECT) {
        CHECK(clearmap_bytes_rect(small_bytes, lb, &by, m, e, g.x0, g.y0, g.x1, g.y1, &found)
              == status);
        OVER_BITS(clearmap_bits_rect(small_words, li, &bi, m, e, g.x0, g.y0, g.x1, g.y1, &found));
    }
    if (kinds & PATH) {
        size_t n = g.points_length;
        CHECK(clearmap_bytes_path(small_bytes, lb, &by, m, e, g.points, n, &found) == status);
        OVER_BITS(clearmap_bits_path(small_words, li, &bi, m, e, g.points, n, &found));
        CHECK(clearmap_bytes_clear_of(small_bytes, lb, &by, m, e, g.points, n, 3, &found)
              == status);
        OVER_BITS(clearmap_bits_clear_of(small_words, li, &bi, m, e, g.points, n, 3, &found));
    }
    if (kinds & ROWS) {
        uint32_t y0 = g.y0, y1 = g.y1;
        size_t n = g.count;
        CHECK(clearmap_bytes_nearest(small_bytes, lb, &by, m, e, y0, y1, nears, n) == status);
        OVER_BITS(clearmap_bits_nearest(small_words, li, &bi, m, e, y0, y1, nears, n));
        CHECK(clearmap_bytes_distances(small_bytes, lb, &by, m, e, y0, y1, distances, n) == status);
        OVER_BITS(clearmap_bits_distances(small_words, li, &bi, m, e, y0, y1, distances, n));
    }
    if (status != CLEARMAP_DONE)
        CHECK(same(near, untouched) && stays(found) && same(nears[0], untouched)
              && distances[0] == 7);
}

#define REFUSE(kinds, status, ...)   \
    do {                             \
        struct given g = right;      \
        __VA_ARGS__;                 \
        refuse(g, kinds, status);    \
    } while (0)

static void try_statuses(void) {
    static clearmap_cell many[1001];
    REFUSE(ALL, CLEARMAP_DONE, (void)0);
    REFUSE(ALL, CLEARMAP_SIZE, g.width = 0);
    REFUSE(ALL, CLEARMAP_SIZE, g.height = 0);
    REFUSE(ALL, CLEARMAP_SIZE, g.width = 4097);
    REFUSE(ALL, CLEARMAP_SIZE, g.height = UINT32_MAX);
    REFUSE(ALL, CLEARMAP_STRIDE, g.stride = 2);
    REFUSE(ALL, CLEARMAP_STRIDE, g.stride = SIZE_MAX);
    REFUSE(ALL, CLEARMAP_LENGTH, g.length = 5);
    REFUSE(ALL, CLEARMAP_METRIC, g.metric = 3);
    REFUSE(ALL, CLEARMAP_METRIC, g.metric = UINT32_MAX);
    REFUSE(ALL, CLEARMAP_EDGE, g.edge = 2);
    REFUSE(ALL, CLEARMAP_EDGE, g.edge = 1u << 31);
    REFUSE(AT, CLEARMAP_OUTSIDE, g.x0 = 3);
    REFUSE(AT, CLEARMAP_OUTSIDE, g.y0 = 2);
    REFUSE(AT, CLEARMAP_OUTSIDE, g.x0 = 65536);
    REFUSE(AT, CLEARMAP_OUTSIDE, g.y0 = UINT32_MAX);
    REFUSE(RECT, CLEARMAP_OUTSIDE, g.x0 = 3);
    REFUSE(RECT, CLEARMAP_OUTSIDE, g.x1 = 1);
    REFUSE(RECT, CLEARMAP_OUTSIDE, g.x1 = 4);
    REFUSE(RECT, CLEARMAP_OUTSIDE, g.y1 = 0);
    REFUSE(RECT | ROWS, CLEARMAP_OUTSIDE, g.y1 = 3);
    REFUSE(ROWS, CLEARMAP_OUTSIDE, g.y0 = 2; g.y1 = 1);
    REFUSE(ROWS, CLEARMAP_OUTSIDE, g.y1 = UINT32_MAX);
    REFUSE(ROWS, CLEARMAP_DONE, g.y0 = 2; g.count = 0);
    REFUSE(ROWS, CLEARMAP_ROOM, g.count = 5);
    REFUSE(PATH, CLEARMAP_POINTS, g.points_length = 0);
    REFUSE(PATH, CLEARMAP_OUTSIDE, g.points[1].x = 3);
    REFUSE(PATH, CLEARMAP_OUTSIDE, g.points[2].y = 2);
    REFUSE(PATH, CLEARMAP_CROOKED, g.points[2].x = 1);
    REFUSE(ALL, CLEARMAP_RANGE, g.high = 0);
    REFUSE(ALL, CLEARMAP_RANGE, g.low = 255; g.high = 254);
    REFUSE(ALL, CLEARMAP_DONE, g.low = 0; g.high = 255);
    /* Of several faults the first is reported, and a range last. */
    REFUSE(ALL, CLEARMAP_SIZE, g.height = 0; g.high = 0);
    REFUSE(ALL, CLEARMAP_STRIDE, g.stride = 2; g.high = 0);
    REFUSE(ALL, CLEARMAP_LENGTH, g.length = 5; g.high = 0);
    REFUSE(ALL, CLEARMAP_METRIC, g.metric = 3; g.high = 0);
    REFUSE(ALL, CLEARMAP_EDGE, g.edge = 2; g.high = 0);
    REFUSE(AT | RECT, CLEARMAP_OUTSIDE, g.x0 = 3; g.high = 0);
    REFUSE(RECT | ROWS, CLEARMAP_OUTSIDE, g.y1 = 3; g.high = 0);
    REFUSE(ROWS, CLEARMAP_ROOM, g.count = 5; g.high = 0);
    REFUSE(PATH, CLEARMAP_POINTS, g.points_length = 0; g.high = 0);
    REFUSE(PATH, CLEARMAP_OUTSIDE, g.points[1].x = 3; g.high = 0);
    REFUSE(PATH, CLEARMAP_CROOKED, g.points[2].x = 1; g.high = 0);
    REFUSE(ALL, CLEARMAP_SIZE, g.height = 4097; g.stride = 2; g.metric = 9);
    REFUSE(ALL, CLEARMAP_STRIDE, g.stride = 2; g.length = 5; g.edge = 9);
    REFUSE(ALL, CLEARMAP_LENGTH, g.length = 5; g.metric = 9; g.y1 = 9);
    REFUSE(ALL, CLEARMAP_METRIC, g.metric = 3; g.edge = 2; g.points_length = 0; g.y1 = 0);
    REFUSE(ALL, CLEARMAP_EDGE, g.edge = 2; g.y1 = 9; g.y0 = 9; g.points_length = 0);
    REFUSE(PATH, CLEARMAP_OUTSIDE, g.points[1].x = 3; g.points[2].x = 1);
    REFUSE(ROWS, CLEARMAP_OUTSIDE, g.y1 = 3; g.count = 5);
    clearmap_found found = untouched_found;
    CHECK(clearmap_bytes_path(small_bytes, 6, &(clearmap_bytes){3, 2, 3, 1, 1}, 0, 0, many, 1001,
                              &found) == CLEARMAP_POINTS && stays(found));
    CHECK(clearmap_bytes_path(small_bytes, 6, &(clearmap_bytes){3, 2, 3, 1, 1}, 0, 0, many, 1000,
                              &found) == CLEARMAP_DONE && found.near.dist == 1);
}

/* Marks of tiles that lie among the rows, or past the end, and a map with other faults before. */
static void try_tile_statuses(void) {
    static const uint64_t words[4] = {2, 0, 0, 0};
    static const struct {
        size_t tiles, length;
        uint32_t width, metric, status;
    } tries[] = {
        {2, 3, 3, 0, CLEARMAP_DONE},     {3, 4, 3, 0, CLEARMAP_DONE},
        {1, 4, 3, 0, CLEARMAP_TILES},    {2, 2, 3, 0, CLEARMAP_TILES},
        {4, 4, 3, 0, CLEARMAP_TILES},    {SIZE_MAX, 4, 3, 0, CLEARMAP_TILES},
        {1, 4, 0, 0, CLEARMAP_SIZE},     {1, 1, 3, 0, CLEARMAP_LENGTH},
        {1, 4, 3, 9, CLEARMAP_TILES},    {2, 4, 3, 9, CLEARMAP_METRIC},
    };
    for (size_t k = 0; k < sizeof tries / sizeof *tries; k++) {
        clearmap_bits bits = {tries[k].width, 2, 1, 0, tries[k].tiles};
        clearmap_near near = untouched;
        uint32_t status = clearmap_bits_at(words, tries[k].length, &bits, tries[k].metric, 0, 0, 0,
                                           &near);
        CHECK(status == tries[k].status && (!status || same(near, untouched)));
        uint8_t cells[6];
        if (tries[k].metric) continue;
        CHECK(clearmap_unpack(words, tries[k].length, &bits, 0, 1, cells, 6) == status);
        uint64_t mine[4] = {2, 0, 7, 7};
        bits.tiles = 0;
        status = clearmap_mark(mine, tries[k].length, &bits, tries[k].tiles);
        CHECK(status == tries[k].status && (bits.tiles == tries[k].tiles || status));
        CHECK(!status || (bits.tiles == 0 && bits.blank_bands == 0 && mine[2] == 7 && mine[3] == 7));
    }
    uint64_t mine[3] = {2, 0, 7};
    clearmap_bits bits = {3, 2, 1, 0, 0};
    CHECK(clearmap_mark(mine, 3, &bits, 0) == CLEARMAP_TILES && mine[0] == 2);
    bits.tiles = 1;
    CHECK(clearmap_mark(mine, 3, &bits, 2) == CLEARMAP_TILES && mine[2] == 7 && bits.tiles == 1);
}

/* Pack and unpack, with too little of each. */
static void try_pack_statuses(void) {
    clearmap_bytes by = {3, 2, 3, 1, 1}, wide = {4097, 2, 4097, 1, 1}, close = {3, 2, 2, 1, 1};
    clearmap_bytes turned = {3, 2, 3, 2, 1};
    clearmap_bits bi = {3, 2, 1, 0, 0}, out = {9, 9, 9, 9, 9};
    uint64_t words[2] = {7, 7};
    uint8_t bytes[6] = {7};
    CHECK(clearmap_pack(small_bytes, 6, &wide, words, 2, &out) == CLEARMAP_SIZE);
    CHECK(clearmap_pack(small_bytes, 6, &close, words, 1, &out) == CLEARMAP_STRIDE);
    CHECK(clearmap_pack(small_bytes, 5, &by, words, 1, &out) == CLEARMAP_LENGTH);
    CHECK(clearmap_pack(small_bytes, 6, &by, words, 1, &out) == CLEARMAP_ROOM);
    CHECK(clearmap_pack(small_bytes, 6, &turned, words, 1, &out) == CLEARMAP_ROOM);
    CHECK(clearmap_pack(small_bytes, 6, &turned, words, 2, &out) == CLEARMAP_RANGE);
    CHECK(words[0] == 7 && words[1] == 7 && out.width == 9 && out.blank_bands == 9);
    CHECK(clearmap_pack(small_bytes, 6, &by, words, 2, &out) == CLEARMAP_DONE);
    CHECK(words[0] == 2 && words[1] == 0 && out.width == 3 && out.stride == 1);
    CHECK(out.blank_bands == ~1ull);
    CHECK(clearmap_unpack(words, 1, &bi, 0, 1, bytes, 5) == CLEARMAP_LENGTH);
    CHECK(clearmap_unpack(words, 2, &bi, 0, 1, bytes, 5) == CLEARMAP_ROOM);
    bi.stride = 0;
    CHECK(clearmap_unpack(words, 2, &bi, 0, 1, bytes, 6) == CLEARMAP_STRIDE);
    bi.height = 0;
    CHECK(clearmap_unpack(words, 2, &bi, 0, 1, bytes, 6) == CLEARMAP_SIZE);
    CHECK(bytes[0] == 7);
    for (uint32_t status = 0; status < 15; status++)
        for (uint32_t other = 0; other < status; other++)
            CHECK(strcmp(clearmap_status_text(status), clearmap_status_text(other)) != 0);
    CHECK(strcmp(clearmap_status_text(17), clearmap_status_text(UINT32_MAX)) == 0);
    CHECK(strcmp(clearmap_version(), CLEARMAP_VERSION) == 0);
}

/* ---- Out of memory --------------------------------------------------------------------------- */

static uint32_t rows_call(int which, clearmap_near *nears, uint32_t *distances) {
    static const clearmap_bytes by = {3, 2, 3, 1, 1};
    static const clearmap_bits bi = {3, 2, 1, 0, 0};
    switch (which) {
    case 0: return clearmap_bytes_nearest(small_bytes, 6, &by, 0, 1, 0, 2, nears, 6);
    case 1: return clearmap_bits_nearest(small_words, 2, &bi, 0, 1, 0, 2, nears, 6);
    case 2: return clearmap_bytes_distances(small_bytes, 6, &by, 0, 1, 0, 2, distances, 6);
    default: return clearmap_bits_distances(small_words, 2, &bi, 0, 1, 0, 2, distances, 6);
    }
}

/* The heap of clearmap.c refuses what malloc doesn't align to, and keeps what it was to move. */
struct tried {
    bool ok;
    void *place;
};
struct tried rattle_alloc(size_t size, size_t align);
struct tried rattle_realloc(void *old, size_t kept, size_t size, size_t align);
void rattle_dealloc(void *place);

static void try_alignments(void) {
    for (size_t align = 1; align <= 4096; align *= 2) {
        struct tried given = rattle_alloc(64, align);
        CHECK(given.ok == (align <= 16));
        if (!given.ok) continue;
        CHECK((uintptr_t)given.place % align == 0);
        memset(given.place, 7, 64);
        CHECK(!rattle_realloc(given.place, 64, 128, 32).ok);
        CHECK(((char *)given.place)[63] == 7);
        rattle_dealloc(given.place);
    }
}

/* Each request of each call refused in turn, until there is none left to refuse. */
static long try_memory(void) {
    long refused = 0;
    for (int which = 0; which < 4; which++)
        for (long k = 0;; k++) {
            clearmap_near nears[6] = {{7, 7, 7}};
            uint32_t distances[6] = {7};
            until_refused = k;
            requests = 0;
            uint32_t status = rows_call(which, nears, distances);
            until_refused = -1;
            if (requests <= k) {
                CHECK(status == CLEARMAP_DONE && k > 0);
                break;
            }
            CHECK(status == CLEARMAP_MEMORY);
            CHECK(same(nears[0], untouched) && distances[0] == 7);
            refused++;
        }
    /* Queries allocate none, nor does a call that is refused for another fault. */
    until_refused = 0;
    requests = 0;
    REFUSE(QUERIES, CLEARMAP_DONE, (void)0);
    REFUSE(ALL, CLEARMAP_RANGE, g.high = 0);
    CHECK(requests == 0);
    until_refused = -1;
    return refused;
}

/* ---- Threads --------------------------------------------------------------------------------- */

enum { THREADS = 8 };

struct band {
    const struct map *map;
    uint32_t y0, y1;
    clearmap_near *nears;
    long wrong;
};

static void *work(void *given) {
    struct band *b = given;
    const struct map *m = b->map;
    uint32_t width = m->in_bytes.width;
    size_t count = (size_t)(b->y1 - b->y0) * width;
    b->wrong += clearmap_bytes_nearest(m->bytes, m->length, &m->in_bytes, 0, 1, b->y0, b->y1,
                                       b->nears, count) != 0;
    for (uint32_t y = b->y0; y < b->y1; y++)
        for (uint32_t x = 0; x < width; x += 7) {
            clearmap_near near;
            b->wrong += clearmap_bits_at(m->words, m->words_length, &m->in_bits, 0, 1, x, y, &near)
                        != 0;
            b->wrong += !same(near, b->nears[(size_t)(y - b->y0) * width + x]);
        }
    return NULL;
}

/* Threads on bands of one map make together what one call makes. */
static void try_threads(void) {
    struct map m;
    make_bytes(&m, 300, 277, 4);
    make_bits(&m);
    size_t all = 300 * 277;
    clearmap_near *one = room(sizeof *one * all), *many = room(sizeof *many * all);
    CHECK(!clearmap_bytes_nearest(m.bytes, m.length, &m.in_bytes, 0, 1, 0, 277, one, all));
    pthread_t threads[THREADS];
    struct band bands[THREADS];
    for (uint32_t k = 0; k < THREADS; k++) {
        uint32_t y0 = 277 * k / THREADS, y1 = 277 * (k + 1) / THREADS;
        bands[k] = (struct band){&m, y0, y1, many + (size_t)y0 * 300, 0};
        if (pthread_create(&threads[k], NULL, work, &bands[k])) exit(2);
    }
    for (int k = 0; k < THREADS; k++) {
        pthread_join(threads[k], NULL);
        CHECK(bands[k].wrong == 0);
    }
    CHECK(memcmp(one, many, sizeof *one * all) == 0);
    free(one);
    free(many);
    drop(&m);
}

/* The largest map, with one obstacle in its last cell. */
static void try_largest(void) {
    const uint32_t side = 4096, last = side - 1;
    const uint32_t far[] = {2 * last * last, 2 * last, last};
    size_t all = (size_t)side * side;
    struct map m = {.in_bytes = {side, side, side, 1, 255}, .length = all};
    m.bytes = room(all);
    memset(m.bytes, 0, all);
    m.bytes[all - 1] = 9;
    m.words_length = all / 64;
    m.words = room(8 * m.words_length);
    CHECK(!clearmap_pack(m.bytes, all, &m.in_bytes, m.words, m.words_length, &m.in_bits));
    CHECK(m.in_bits.blank_bands == ~(1ull << 63));
    uint32_t *distances = room(4 * all);
    clearmap_near near;
    clearmap_found found;
    for (uint32_t metric = 0; metric < 3; metric++) {
        CHECK(!clearmap_bits_distances(m.words, m.words_length, &m.in_bits, metric, 0, 0, side,
                                       distances, all));
        CHECK(distances[0] == far[metric] && distances[all - 1] == 0);
        CHECK(!clearmap_bits_at(m.words, m.words_length, &m.in_bits, metric, 0, 0, 0, &near));
        CHECK(same(near, (clearmap_near){far[metric], (int16_t)last, (int16_t)last}));
        CHECK(!clearmap_bytes_at(m.bytes, all, &m.in_bytes, metric, 1, 0, 0, &near));
        CHECK(same(near, (clearmap_near){1, -1, 0}));
        CHECK(!clearmap_bits_rect(m.words, m.words_length, &m.in_bits, metric, 0, 0, 0, side, side,
                                  &found));
        CHECK(found.cell.x == last && found.cell.y == last && found.near.dist == 0);
    }
    free(distances);
    drop(&m);
}

int main(int argc, char **argv) {
    int maps = argc > 1 ? atoi(argv[1]) : 40;
    try_statuses();
    try_tile_statuses();
    try_pack_statuses();
    try_alignments();
    try_marks_anew();
    try_radii();
    long refused = try_memory();
    try_threads();
    try_maps(maps);
    if (maps > 5) try_largest();
    printf("test_clearmap: %ld checks, %ld requests refused, %ld wrong\n", tried, refused, wrong);
    return wrong != 0;
}
