/*
 * Compares a library with the weak model (weak_model.c): random calls of all kinds, a third of them
 * with a fault or several. The statuses are the same, and all that the calls have written; so is
 * what they had to leave as it was.
 *
 *     compare_with_model LIBRARY MODEL CALLS      two shared libraries, each by its path
 *
 * Its last line has counts; its status is 1 if a call differs, or if a status was never seen.
 */
#include "clearmap.h"

#include <dlfcn.h>
#include <stdbool.h>
#include <stdio.h>
#include <stdlib.h>
#include <string.h>

enum { ITEMS = 1 << 16, POINTS = 1001, STATUSES = 14, KINDS = 23 };

/* The calls of a library, by the names of the header. */
#define EACH_CALL(of)                                                              \
    of(pack) of(unpack) of(mark)                                                   \
    of(bytes_distances) of(bytes_nearest) of(bytes_at) of(bytes_rect)              \
    of(bytes_path) of(bytes_clear_of)                                              \
    of(bits_distances) of(bits_nearest) of(bits_at) of(bits_rect)                  \
    of(bits_path) of(bits_clear_of)                                                \
    of(bytes_at_many) of(bytes_clear_many) of(bits_at_many) of(bits_clear_many)    \
    of(bytes_costs) of(bits_costs) of(paint) of(clear)

struct library {
#define CALL(name) __typeof__(clearmap_##name) *name;
    EACH_CALL(CALL)
#undef CALL
};

static void find(void *place, void *handle, const char *name) {
    void *found = dlsym(handle, name);
    if (!found) {
        fprintf(stderr, "there is no %s\n", name);
        exit(2);
    }
    memcpy(place, &found, sizeof found);
}

static struct library load(const char *path) {
    struct library library;
    void *handle = dlopen(path, RTLD_NOW | RTLD_LOCAL);
    if (!handle) {
        fprintf(stderr, "%s\n", dlerror());
        exit(2);
    }
#define CALL(name) find(&library.name, handle, "clearmap_" #name);
    EACH_CALL(CALL)
#undef CALL
    return library;
}

/* ---- What a call is given -------------------------------------------------------------------- */

static uint64_t seed = 1;

static uint32_t draw(uint32_t below) {
    seed = seed * 6364136223846793005u + 1442695040888963407u;
    return (uint32_t)(((seed >> 32) * below) >> 32);
}

static bool is_odd_call; /* whether this call may have faults */

/* A right number, or now and then one that is next to it or far from it. */
static uint32_t about(uint32_t right) {
    const uint32_t others[] = {0, right - 1, right + 1, 4096, 4097, right + 65536, UINT32_MAX};
    return is_odd_call && !draw(12) ? others[draw(sizeof others / sizeof *others)] : right;
}

/* A number of items that are there: as many as are needed, or some more, or now and then less. */
static size_t length_for(size_t needed) {
    size_t length = needed + draw(4);
    if (is_odd_call && !draw(8) && needed) length = needed - 1 - draw(needed > 9 ? 9 : 1);
    return length < ITEMS ? length : ITEMS;
}

struct given {
    clearmap_bytes bytes;
    clearmap_bits bits;
    uint32_t metric, edge, x0, y0, x1, y1, d;
    size_t bytes_length, words_length, points_length, room, words_room, cells_room, tiles;
    size_t points_room, entries;
    uint8_t free, obstacle;
};

static uint8_t bytes[ITEMS];
static uint64_t words[ITEMS];
static clearmap_cell points[POINTS];
static uint8_t table[301];

static void draw_cells(const struct given *g, uint32_t thousandths) {
    for (size_t k = 0; k < g->bytes_length; k++)
        bytes[k] = (uint8_t)(draw(1000) < thousandths ? draw(256) : g->bytes.high + 1u);
    for (size_t k = 0; k < g->words_length; k++) {
        words[k] = draw(3) ? 0 : UINT64_MAX << draw(64);
        if (thousandths < 500) words[k] = draw(1000) < 5 * thousandths ? 1ull << draw(64) : 0;
    }
}

static void draw_points(struct given *g, uint32_t width, uint32_t height) {
    static const size_t counts[] = {0, 1000, 1001};
    g->points_length = is_odd_call && !draw(12) ? counts[draw(3)] : 1 + draw(5);
    for (size_t k = 0; k < g->points_length; k++) {
        points[k] = (clearmap_cell){(uint16_t)draw(width), (uint16_t)draw(height)};
        if (k && draw(2)) points[k].x = points[k - 1].x;
        else if (k) points[k].y = points[k - 1].y;
        if (is_odd_call && !draw(30)) points[k].x = (uint16_t)about(points[k].x);
        if (is_odd_call && !draw(30)) points[k].y = (uint16_t)draw(height + 1);
    }
}

static struct given draw_given(void) {
    static const uint32_t shares[] = {0, 3, 30, 600};
    is_odd_call = draw(3) == 0;
    uint32_t width = 1 + draw(draw(8) ? 40 : 200), height = 1 + draw(draw(8) ? 24 : 150);
    size_t across = ((size_t)width + 63) / 64, words_stride = across + draw(2);
    size_t stride = width + draw(4);
    struct given g = {.metric = about(draw(3)), .edge = about(draw(2)), .d = about(draw(80))};
    g.bytes = (clearmap_bytes){about(width), about(height), about((uint32_t)stride),
                               (uint8_t)draw(120), (uint8_t)(120 + draw(136))};
    if (is_odd_call && !draw(4)) g.bytes.high = (uint8_t)(g.bytes.low - draw(2));
    g.bits = (clearmap_bits){about(width), about(height), about((uint32_t)words_stride),
                             draw(3) ? 0 : 1u << draw(3), 0};
    if (is_odd_call && !draw(30)) g.bytes.stride = g.bits.stride = (size_t)1 << 32;
    g.bytes_length = length_for((height - 1) * stride + width);
    size_t rows_end = (height - 1) * words_stride + across, marks = rows_end + draw(3);
    g.words_length = length_for(draw(2) ? rows_end : marks + (height + 63) / 64);
    g.tiles = about((uint32_t)marks);
    if (!draw(3)) {
        g.bits.tiles = about((uint32_t)marks);
        if (draw(8)) g.words_length = length_for(marks + (height + 63) / 64);
    }
    g.x0 = draw(width), g.y0 = draw(height);
    g.x1 = about(g.x0 + 1 + draw(width - g.x0)), g.y1 = about(g.y0 + 1 + draw(height - g.y0));
    g.x0 = about(g.x0), g.y0 = about(g.y0);
    g.room = length_for(g.y1 < g.y0 ? 0 : (size_t)(g.y1 - g.y0) * width);
    g.words_room = length_for(across * height), g.cells_room = length_for((size_t)width * height);
    g.free = (uint8_t)draw(256), g.obstacle = (uint8_t)draw(256);
    draw_points(&g, width, height);
    g.points_room = length_for(g.points_length);
    g.entries = is_odd_call && !draw(12) ? 0 : 1 + draw(draw(2) ? 3 : 300);
    draw_cells(&g, shares[draw(4)]);
    return g;
}

/* ---- What a call writes ---------------------------------------------------------------------- */

struct answers {
    uint32_t status;
    size_t wrong;
    clearmap_bits bits;
    clearmap_near near;
    clearmap_found found;
    union {
        uint8_t cells[ITEMS];
        uint64_t words[ITEMS];
        uint32_t distances[ITEMS];
        clearmap_near nears[ITEMS];
    } all;
};

#define OVER(kind, items, g) items, (g)->items##_length, &(g)->kind, (g)->metric, (g)->edge
#define BYTES(g) OVER(bytes, bytes, g)
#define WORDS(g) OVER(bits, words, g)
#define RECT(g) (g)->x0, (g)->y0, (g)->x1, (g)->y1
#define PATH(g) points, (g)->points_length
#define TABLE(g) table, (g)->entries, (g)->y0, (g)->y1

static uint32_t call(const struct library *of, int kind, const struct given *g, struct answers *a) {
    uint32_t *distances = a->all.distances;
    clearmap_near *nears = a->all.nears;
    clearmap_found *found = &a->found;
    switch (kind) {
    case 0:
        return of->pack(bytes, g->bytes_length, &g->bytes, a->all.words, g->words_room, &a->bits);
    case 1:
        return of->unpack(words, g->words_length, &g->bits, g->free, g->obstacle, a->all.cells,
                          g->cells_room);
    case 2: return of->bytes_distances(BYTES(g), g->y0, g->y1, distances, g->room);
    case 3: return of->bytes_nearest(BYTES(g), g->y0, g->y1, nears, g->room);
    case 4: return of->bytes_at(BYTES(g), g->x0, g->y0, &a->near);
    case 5: return of->bytes_rect(BYTES(g), RECT(g), found);
    case 6: return of->bytes_path(BYTES(g), PATH(g), found);
    case 7: return of->bytes_clear_of(BYTES(g), PATH(g), g->d, found);
    case 8: return of->bits_distances(WORDS(g), g->y0, g->y1, distances, g->room);
    case 9: return of->bits_nearest(WORDS(g), g->y0, g->y1, nears, g->room);
    case 10: return of->bits_at(WORDS(g), g->x0, g->y0, &a->near);
    case 11: return of->bits_rect(WORDS(g), RECT(g), found);
    case 12: return of->bits_path(WORDS(g), PATH(g), found);
    case 13: return of->bits_clear_of(WORDS(g), PATH(g), g->d, found);
    case 14: return of->bytes_at_many(BYTES(g), PATH(g), nears, g->points_room, &a->wrong);
    case 15: return of->bits_at_many(WORDS(g), PATH(g), nears, g->points_room, &a->wrong);
    case 16:
        return of->bytes_clear_many(BYTES(g), PATH(g), g->d, a->all.cells, g->points_room,
                                    &a->wrong);
    case 17:
        return of->bits_clear_many(WORDS(g), PATH(g), g->d, a->all.cells, g->points_room,
                                   &a->wrong);
    case 18: return of->bytes_costs(BYTES(g), TABLE(g), a->all.cells, g->room);
    case 19: return of->bits_costs(WORDS(g), TABLE(g), a->all.cells, g->room);
    default:
        a->bits = g->bits;
        memcpy(a->all.words, words, sizeof *words * g->words_length);
        if (kind == 20) return of->mark(a->all.words, g->words_length, &a->bits, g->tiles);
        if (kind == 21) return of->paint(a->all.words, g->words_length, &a->bits, RECT(g));
        return of->clear(a->all.words, g->words_length, &a->bits, RECT(g));
    }
}

/* A map that was drawn on, as its cells alone: which marks hide what is left open. */
static void forget_marks(clearmap_bits *map, uint64_t *its) {
    for (uint32_t y = 0; y < map->height; y++) {
        uint64_t marks = map->tiles ? its[map->tiles + y / 64] : 0;
        for (uint32_t k = 0; k < (map->width + 63) / 64; k++) {
            bool is_hidden = (map->blank_bands >> (y / 64) & 1) || (marks >> k & 1);
            uint64_t *word = &its[y * map->stride + k];
            *word = is_hidden ? 0 : *word;
            if (map->width - 64 * k < 64) *word &= (1ull << (map->width % 64)) - 1;
        }
    }
    for (uint32_t band = 0; map->tiles && band < (map->height + 63) / 64; band++)
        its[map->tiles + band] = 0;
    map->blank_bands = 0;
}

/* Makes a call on answers that begin as the same bytes; a cell without a meaning becomes 0. */
static void answer(const struct library *of, int kind, const struct given *g, struct answers *a) {
    memset(a, 0x17, sizeof *a);
    a->status = call(of, kind, g, a);
    if (a->status == CLEARMAP_DONE && a->found.near.dist == CLEARMAP_NO_OBSTACLE)
        a->found.cell = (clearmap_cell){0, 0};
    if (a->status == CLEARMAP_DONE && kind > 20) forget_marks(&a->bits, a->all.words);
}

int main(int argc, char **argv) {
    static struct answers ours, theirs;
    if (argc != 4) return 2;
    struct library library = load(argv[1]), model = load(argv[2]);
    long calls = atol(argv[3]), wrong = 0, seen[STATUSES] = {0};
    for (size_t k = 0; k < sizeof table; k++) table[k] = (uint8_t)draw(256);
    for (long k = 0; k < calls; k++) {
        int kind = (int)draw(KINDS);
        struct given g = draw_given();
        answer(&library, kind, &g, &ours);
        answer(&model, kind, &g, &theirs);
        seen[theirs.status]++;
        if (memcmp(&ours, &theirs, sizeof ours) != 0 && ++wrong <= 20)
            printf("call %ld of kind %d: status %u, and of the model %u\n", k, kind, ours.status,
                   theirs.status);
    }
    long refused = 0;
    for (int status = 0; status < STATUSES; status++) {
        if (status != CLEARMAP_MEMORY && !seen[status] && ++wrong)
            printf("no call had the status %d\n", status);
        refused += status ? seen[status] : 0;
    }
    printf("compare_with_model: %ld calls, %ld refused, %ld wrong\n", calls, refused, wrong);
    return wrong != 0;
}
