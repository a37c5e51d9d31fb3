/*
 * Tests of the calls for footprints: each answer against a search of all cells by separating axes,
 * on maps of awkward sizes whose arrays end at a page that nobody may touch; each status in its
 * order, and what stays as it was.
 *
 *     test_hits [MAPS]          how many random maps, 200 if it is left out
 *
 * Linked with -Wl,--wrap=malloc. Its last line has counts; its status is 1 if one is wrong.
 */
#define _GNU_SOURCE
#include "clearmap.h"

#include "testing.h"

#include <math.h>
#include <stdbool.h>

enum { STEPS = 65536, FAR = 1 << 30, MOST = 128 };

static long hit_count, bent_count, requests;

void *__real_malloc(size_t size);
void *__wrap_malloc(size_t size);

void *__wrap_malloc(size_t size) {
    ++requests;
    return __real_malloc(size);
}

/* ---- By the definition ----------------------------------------------------------------------- */

__extension__ typedef __int128 wide;

static wide cross(clearmap_corner a, clearmap_corner b, wide x, wide y) {
    return ((wide)b.x - a.x) * (y - a.y) - ((wide)b.y - a.y) * (x - a.x);
}

/* Whether no side and no axis separates a polygon from the square of cell (x, y). */
static bool meets(const clearmap_corner *ring, size_t count, int64_t x, int64_t y) {
    int64_t left = STEPS * x, top = STEPS * y;
    int64_t least_x = INT64_MAX, most_x = INT64_MIN, least_y = INT64_MAX, most_y = INT64_MIN;
    for (size_t k = 0; k < count; k++) {
        clearmap_corner a = ring[k], b = ring[(k + 1) % count];
        bool passes = false;
        for (int corner = 0; corner < 4; corner++)
            if (cross(a, b, left + STEPS * (corner & 1), top + STEPS * (corner >> 1)) > 0)
                passes = true;
        if (!passes) return false;
        if (a.x < least_x) least_x = a.x;
        if (a.x > most_x) most_x = a.x;
        if (a.y < least_y) least_y = a.y;
        if (a.y > most_y) most_y = a.y;
    }
    return least_x < left + STEPS && left < most_x && least_y < top + STEPS && top < most_y;
}

/* What is wrong with a ring: by the turn at each corner, and by how often it goes round. */
static uint32_t fault(const clearmap_corner *ring, size_t count) {
    if (count < 3 || count > MOST) return CLEARMAP_CORNERS;
    for (size_t k = 0; k < count; k++)
        if (ring[k].x <= -FAR || ring[k].x >= FAR || ring[k].y <= -FAR || ring[k].y >= FAR)
            return CLEARMAP_FAR;
    size_t rounds = 0;
    for (size_t k = 0; k < count; k++) {
        clearmap_corner a = ring[k], b = ring[(k + 1) % count], c = ring[(k + 2) % count];
        if (cross(a, b, c.x, c.y) <= 0) return CLEARMAP_BENT;
        if (b.y <= a.y && c.y > b.y) rounds++;
    }
    return rounds == 1 ? CLEARMAP_DONE : CLEARMAP_BENT;
}

/* ---- Random maps and polygons ---------------------------------------------------------------- */

struct map {
    struct guarded bytes_at, words_at;
    clearmap_bytes in_bytes;
    clearmap_bits in_bits;
    size_t bytes_length, words_length;
};

static struct map make(uint32_t width, uint32_t height, uint32_t thousandths) {
    struct map m = {.in_bytes = {width, height, width + draw(4), 1, 255}};
    size_t across = ((size_t)width + 63) / 64, rows = across * height, marks = (height + 63) / 64;
    m.bytes_length = (height - 1) * m.in_bytes.stride + width;
    m.words_length = rows + (draw(2) ? marks : 0);
    m.bytes_at = guard(m.bytes_length, 1), m.words_at = guard(8 * m.words_length, 8);
    uint8_t *bytes = m.bytes_at.place;
    for (size_t k = 0; k < m.bytes_length; k++) bytes[k] = draw(1000) < thousandths;
    CHECK(!clearmap_pack(bytes, m.bytes_length, &m.in_bytes, m.words_at.place, m.words_length,
                         &m.in_bits));
    if (m.words_length > rows)
        CHECK(!clearmap_mark(m.words_at.place, m.words_length, &m.in_bits, rows));
    return m;
}

/* A turned ellipse's corners, or some that a grid line, a far place or chance has. */
static void draw_ring(clearmap_corner *ring, size_t count, uint32_t width, uint32_t height) {
    double turned = draw(4) ? draw(6283) / 1000.0 : 0, size = draw(3) ? 1 + draw(20) : 0.01;
    double x = draw(width + 20) - 10.0, y = draw(height + 20) - 10.0;
    double flat = (1 + draw(100)) / 100.0;
    if (draw(2)) x += draw(1000) / 1000.0, y += draw(1000) / 1000.0;
    for (size_t k = 0; k < count; k++) {
        double at = 6.283185307179586 * (double)k / (double)count;
        double across = size * cos(at), down = size * flat * sin(at);
        ring[k].x = (int32_t)floor(STEPS * (x + across * cos(turned) - down * sin(turned)));
        ring[k].y = (int32_t)floor(STEPS * (y + across * sin(turned) + down * cos(turned)));
    }
    uint32_t kind = draw(20);
    if (kind == 0) ring[draw((uint32_t)count)].x = draw(2) ? FAR : -FAR;
    if (kind == 1) ring[draw((uint32_t)count)].y = draw(2) ? FAR - 1 : INT32_MIN;
    if (kind == 2) ring[draw((uint32_t)count)] = ring[draw((uint32_t)count)];
    if (kind == 3)
        for (size_t k = 0; k < count; k++) ring[k] = (clearmap_corner){ring[k].y, ring[k].x};
    if (kind == 4)
        for (size_t k = 0; k < count; k++) ring[k].x = ring[k].x / STEPS * STEPS;
}

/* ---- Tries ----------------------------------------------------------------------------------- */

#define BYTES(m) (m)->bytes_at.place, (m)->bytes_length, &(m)->in_bytes
#define WORDS(m) (m)->words_at.place, (m)->words_length, &(m)->in_bits

static bool is_hit(const struct map *m, uint32_t edge, const clearmap_corner *ring, size_t count) {
    const uint8_t *bytes = m->bytes_at.place;
    int64_t width = m->in_bytes.width, height = m->in_bytes.height;
    for (size_t k = 0; edge == CLEARMAP_WALL && k < count; k++)
        if (ring[k].x < 0 || ring[k].y < 0 || ring[k].x > STEPS * width
            || ring[k].y > STEPS * height)
            return true;
    for (int64_t y = 0; y < height; y++)
        for (int64_t x = 0; x < width; x++)
            if (bytes[y * (int64_t)m->in_bytes.stride + x] && meets(ring, count, x, y)) return true;
    return false;
}

/* Some polygons of as many corners: one by one, and in one call. */
static void try_polygons(const struct map *m, uint32_t edge) {
    size_t count = 3 + draw(draw(8) ? 6 : 130), polygons = draw(5), length = count * polygons;
    struct guarded corners_at = guard(length * sizeof(clearmap_corner), 4);
    size_t room = polygons + draw(2);
    struct guarded hits_at = guard(room, 1);
    clearmap_corner *corners = corners_at.place;
    uint8_t *hits = hits_at.place, want[5] = {0};
    uint32_t first = CLEARMAP_DONE;
    for (size_t k = 0; k < polygons; k++) {
        clearmap_corner *ring = corners + k * count;
        draw_ring(ring, count, m->in_bytes.width, m->in_bytes.height);
        uint32_t status = fault(ring, count);
        if (!first || status == CLEARMAP_FAR) first = status; /* of all, before a bent one */
        bent_count += status == CLEARMAP_BENT;
        want[k] = status ? 7 : is_hit(m, edge, ring, count);
        hit_count += want[k] == 1;
        uint8_t hit = 7, other = 7;
        CHECK(clearmap_bits_hits(WORDS(m), edge, ring, count, &hit) == status && hit == want[k]);
        CHECK(clearmap_bytes_hits(BYTES(m), edge, ring, count, &other) == status);
        CHECK(other == want[k]);
    }
    if (count > MOST) first = CLEARMAP_CORNERS;
    for (int bits = 0; bits < 2; bits++)
        for (int less = 0; less < 2; less++) {
            size_t space = less && polygons ? polygons - 1 : room;
            uint32_t status = first ? first : less && polygons ? CLEARMAP_ROOM : CLEARMAP_DONE;
            memset(hits, 7, room);
            uint32_t got =
                bits ? clearmap_bits_hits_many(WORDS(m), edge, corners, length, count, hits, space)
                     : clearmap_bytes_hits_many(BYTES(m), edge, corners, length, count, hits, space);
            CHECK(got == status);
            for (size_t k = 0; k < room; k++)
                CHECK(hits[k] == (got == CLEARMAP_DONE && k < polygons ? want[k] : 7));
        }
    unguard(corners_at), unguard(hits_at);
}

/* Each status, the first of several faults; nothing is written. */
static void try_statuses(void) {
    static const uint8_t bytes[6] = {0, 1, 0, 0, 0, 0};
    static const uint64_t words[3] = {2, 0, 0};
    static const clearmap_corner ring[4] = {{0, 0}, {9, 0}, {9, 9}, {0, 9}};
    static const clearmap_corner bent[4] = {{0, 0}, {0, 9}, {9, 9}, {9, 0}};
    static const clearmap_corner far[4] = {{0, 0}, {FAR, 0}, {9, 9}, {0, 9}};
    clearmap_bytes by = {3, 2, 3, 1, 1};
    clearmap_bits bi = {3, 2, 1, 0, 0};
    uint8_t hit = 7;
#define BITS(status, edge, corners, count) \
    CHECK(clearmap_bits_hits(words, 3, &bi, edge, corners, count, &hit) == (status))
    BITS(CLEARMAP_EDGE, 2, bent, 2);
    BITS(CLEARMAP_CORNERS, 1, far, 2);
    BITS(CLEARMAP_CORNERS, 0, ring, 0);
    BITS(CLEARMAP_FAR, 0, far, 4);
    BITS(CLEARMAP_BENT, 0, bent, 4);
    bi.tiles = 1;
    BITS(CLEARMAP_TILES, 2, far, 2);
    bi.stride = 0;
    BITS(CLEARMAP_STRIDE, 2, far, 2);
    bi.width = 0;
    BITS(CLEARMAP_SIZE, 2, far, 2);
    by.low = 2;
    CHECK(clearmap_bytes_hits(bytes, 6, &by, 0, bent, 4, &hit) == CLEARMAP_BENT);
    CHECK(clearmap_bytes_hits(bytes, 6, &by, 0, ring, 4, &hit) == CLEARMAP_RANGE);
    CHECK(clearmap_bytes_hits(bytes, 5, &by, 2, ring, 4, &hit) == CLEARMAP_LENGTH);
    CHECK(hit == 7);
    /* The corners aren't those of whole polygons. */
    by.low = 1;
    CHECK(clearmap_bytes_hits_many(bytes, 6, &by, 0, ring, 4, 3, &hit, 1) == CLEARMAP_CORNERS);
    CHECK(clearmap_bytes_hits_many(bytes, 6, &by, 0, ring, 4, 0, &hit, 1) == CLEARMAP_CORNERS);
    CHECK(clearmap_bytes_hits_many(bytes, 6, &by, 0, ring, 4, SIZE_MAX, &hit, 1)
          == CLEARMAP_CORNERS);
    CHECK(hit == 7);
}

int main(int argc, char **argv) {
    static const uint32_t shares[] = {0, 2, 50, 600, 1000};
    int maps = argc > 1 ? atoi(argv[1]) : 200;
    try_statuses();
    for (int t = 0; t < maps; t++) {
        struct map m = make(1 + draw(100), 1 + draw(100), shares[t % 5]);
        for (int k = 0; k < 6; k++) try_polygons(&m, draw(2));
        unguard(m.bytes_at), unguard(m.words_at);
    }
    CHECK(requests < 2); /* at most printf's */
    CHECK(maps < 20 || (hit_count > 0 && bent_count > 0));
    printf("test_hits: %ld checks, %ld hits, %ld bent, %ld wrong\n", tried, hit_count, bent_count,
           wrong);
    return wrong != 0;
}
