/*
 * A weak model of libclearmap: each call of clearmap.h by a search of all obstacles. It does what
 * the header and the contracts in crates/libclearmap say, and where they leave something open, what
 * helps a caller least. The tests of the callers run over it too: who rests on more than what is
 * promised fails. What it does, and the sentence that lets it:
 *
 * - The cell of `found` is no cell where there is no obstacle, and another one at each place in
 *   memory: "Where near says that there is none, the cell has no meaning."
 * - Answers are other numbers before they are right: "No other thread may touch what a call
 *   writes".
 * - It reads all items of each array, gaps and those after the last row too, whatever the status:
 *   "each length is true, and counts items, not bytes".
 * - It reads the map twice, and ends the program if a thread has written it in the meantime: "No
 *   other thread may touch what a call writes, or a map that a thread writes, in the meantime."
 * - It ends the program at a null pointer, at one that isn't aligned, and where what is written
 *   overlaps what is read or what else is written: "Caller's duties, which nothing checks".
 * - Tables ask malloc once, for the most that is told, also for no rows: "an eighth of a byte per
 *   cell in rows of whole words, and for at most 280 bytes per column and 1700 more".
 * - It leaves other bytes on the stack: "The stack grows by at most 6 KB."
 * - It sets errno, of which no sentence tells.
 * - Its texts have words of their own: "What a status says, in one line without its end."
 * - Where it paints it takes away all marks of a band, and sets the bits past the edge: "Bits past
 *   the last column may become others."
 *
 * Nothing is open in the answers, in the order of the statuses, and in what clearmap_pack,
 * clearmap_mark and clearmap_unpack write: the clauses of pack.rt and mark.rt fix blank_bands too.
 */
#include "clearmap.h"
#include "weak_duties.h"

#include <stdbool.h>
#include <stdlib.h>
#include <string.h>

enum { MOST_SIDE = 4096, MOST_POINTS = 1000 };

/* A call's map, in bytes or in bits (where `bytes` is null), and what it is asked by. */
struct call {
    const clearmap_bytes *bytes;
    const clearmap_bits *bits;
    const void *items;
    struct memory read, layout;
    size_t length, across, stride;
    uint32_t width, height, metric, edge, sum;
    long x0, y0, x1, y1; /* the first and last columns and rows of obstacles; x1 < x0 if none is */
};

static long largest(long a, long b) { return a > b ? a : b; }
static long smallest(long a, long b) { return a < b ? a : b; }

/* ---- A call's begin and end ------------------------------------------------------------------ */

static struct call over_bytes(const uint8_t *bytes, size_t length, const clearmap_bytes *map,
                              uint32_t metric, uint32_t edge) {
    struct call c = {.bytes = map, .items = bytes, .length = length};
    c.read = given(bytes, length, 1, 1);
    c.layout = given(map, 1, sizeof *map, _Alignof(clearmap_bytes));
    c.width = map->width, c.height = map->height, c.stride = map->stride, c.across = map->width;
    c.metric = metric, c.edge = edge, c.sum = read_all(c.read);
    return c;
}

static struct call over_bits(const uint64_t *words, size_t length, const clearmap_bits *map,
                             uint32_t metric, uint32_t edge) {
    struct call c = {.bits = map, .items = words, .length = length};
    c.read = given(words, length, sizeof *words, _Alignof(uint64_t));
    c.layout = given(map, 1, sizeof *map, _Alignof(clearmap_bits));
    c.width = map->width, c.height = map->height, c.stride = map->stride;
    c.across = ((size_t)map->width + 63) / 64;
    c.metric = metric, c.edge = edge, c.sum = read_all(c.read);
    return c;
}

/* The status of marks of tiles that begin at an index, of a map whose rows are there. */
static uint32_t marks_status(const struct call *c, size_t tiles) {
    size_t rows = (c->height - 1) * c->stride + c->across, bands = (c->height + 63) / 64;
    return tiles < rows || c->length < bands || c->length - bands < tiles ? CLEARMAP_TILES
                                                                          : CLEARMAP_DONE;
}

static uint32_t map_status(const struct call *c) {
    if (c->width - 1 >= MOST_SIDE || c->height - 1 >= MOST_SIDE) return CLEARMAP_SIZE;
    if (c->stride < c->across || c->stride > UINT32_MAX) return CLEARMAP_STRIDE;
    if (c->length < (c->height - 1) * c->stride + c->across) return CLEARMAP_LENGTH;
    if (c->bits && c->bits->tiles && marks_status(c, c->bits->tiles)) return CLEARMAP_TILES;
    if (c->metric > CLEARMAP_CHESS) return CLEARMAP_METRIC;
    return c->edge > CLEARMAP_WALL ? CLEARMAP_EDGE : CLEARMAP_DONE;
}

/* The last status before MEMORY. */
static uint32_t range_status(const struct call *c) {
    return c->bytes && c->bytes->low > c->bytes->high ? CLEARMAP_RANGE : CLEARMAP_DONE;
}

/* Whether a spot is an obstacle, where one of the frame isn't known to be out of the map. */
static bool is_obstacle(const struct call *c, long x, long y) {
    bool is_inside = x >= 0 && y >= 0 && x < (long)c->width && y < (long)c->height;
    if (!is_inside)
        return c->edge == CLEARMAP_WALL && x >= -1 && y >= -1 && x <= (long)c->width
               && y <= (long)c->height;
    if (c->bytes) {
        uint8_t byte = ((const uint8_t *)c->items)[(size_t)y * c->stride + (size_t)x];
        return c->bytes->low <= byte && byte <= c->bytes->high;
    }
    const uint64_t *words = c->items;
    uint64_t word = words[(size_t)y * c->stride + (size_t)x / 64];
    uint64_t marks = c->bits->tiles ? words[c->bits->tiles + (size_t)y / 64] : 0;
    return (word >> (x % 64) & 1) && !(c->bits->blank_bands >> (y / 64) & 1)
           && !(marks >> (x / 64) & 1);
}

/* The bits from a cell on in its word; all of them for a map in bytes, which has no words. */
static uint64_t bits_from(const struct call *c, long x, long y) {
    if (c->bytes) return UINT64_MAX;
    return ((const uint64_t *)c->items)[(size_t)y * c->stride + (size_t)x / 64] >> (x % 64);
}

static void find_bounds(struct call *c) {
    long width = c->width, height = c->height;
    bool is_walled = c->edge == CLEARMAP_WALL;
    c->x0 = is_walled ? -1 : width, c->x1 = is_walled ? width : -1;
    c->y0 = is_walled ? -1 : height, c->y1 = is_walled ? height : -1;
    for (long y = 0; y < height && !is_walled; y++)
        for (long x = 0; x < width; x++) {
            if (!bits_from(c, x, y)) x |= 63;
            else if (is_obstacle(c, x, y)) {
                c->x0 = smallest(x, c->x0), c->x1 = largest(x, c->x1);
                c->y0 = smallest(y, c->y0), c->y1 = y;
            }
        }
}

/* A call is taken: its answers, apart from all that it reads, become other bytes. */
static void begin(struct call *c, void *answers, size_t size) {
    struct memory written = {answers, size};
    apart(written, c->read);
    apart(written, c->layout);
    scribble(answers, size);
}

static uint32_t done(const struct call *c) {
    duty(c->sum == read_all(c->read), "a thread has written a map that a call reads");
    return CLEARMAP_DONE;
}

/* ---- Nearest obstacles ----------------------------------------------------------------------- */

static const clearmap_near nothing = {CLEARMAP_NO_OBSTACLE, CLEARMAP_NOWHERE, CLEARMAP_NOWHERE};

static uint32_t measure(const struct call *c, long dx, long dy) {
    dx = labs(dx), dy = labs(dy);
    if (c->metric == CLEARMAP_EUCLID2) return (uint32_t)(dx * dx + dy * dy);
    return (uint32_t)(c->metric == CLEARMAP_CITY ? dx + dy : dx > dy ? dx : dy);
}

/* Takes an obstacle, the one of its column in the fewest rows away, where it is nearer. */
static void consider(const struct call *c, long x, long y, long column, long row,
                     clearmap_near *best) {
    uint32_t dist = measure(c, x - column, y - row);
    if (dist < best->dist || (dist == best->dist && column < best->x))
        *best = (clearmap_near){dist, (int16_t)column, (int16_t)row};
}

/* Searches a column for the obstacle in the fewest rows away, the upper one first. */
static void search_column(const struct call *c, long x, long y, long column, clearmap_near *best) {
    long first = largest(0, largest(c->y0 - y, y - c->y1)), last = largest(y - c->y0, c->y1 - y);
    for (long rows = first; rows <= last; rows++) {
        if (measure(c, x - column, rows) > best->dist) return;
        bool is_above = is_obstacle(c, column, y - rows);
        if (!is_above && !is_obstacle(c, column, y + rows)) continue;
        consider(c, x, y, column, is_above ? y - rows : y + rows, best);
        return;
    }
}

static clearmap_near search(const struct call *c, long x, long y) {
    clearmap_near best = nothing;
    for (long a = largest(x, c->x0); a <= c->x1 && measure(c, a - x, 0) <= best.dist; a++)
        search_column(c, x, y, a, &best);
    for (long a = smallest(x - 1, c->x1); a >= c->x0 && measure(c, x - a, 0) <= best.dist; a--)
        search_column(c, x, y, a, &best);
    return best;
}

/* ---- Tables ---------------------------------------------------------------------------------- */

/* The obstacles of a column next to a row: the last above it or in it, and the first below it. */
struct column {
    int16_t above, below;
};

static void to_row(const struct call *c, long y, struct column *columns) {
    long height = c->height;
    for (long x = -1; x <= (long)c->width; x++) {
        struct column *at = &columns[x + 1];
        if (is_obstacle(c, x, y)) at->above = (int16_t)y;
        if (at->below > y || at->below == CLEARMAP_NOWHERE) continue;
        long row = y + 1;
        while (row <= height && !is_obstacle(c, x, row)) row++;
        at->below = (int16_t)(row <= height ? row : CLEARMAP_NOWHERE);
    }
}

/* The obstacles of each column that are nearest to a row, from the left. Returns how many. */
static long row_spots(const struct call *c, long y, const struct column *columns,
                      struct column *spots) {
    long count = 0;
    for (long x = -1; x <= (long)c->width; x++) {
        long above = columns[x + 1].above, below = columns[x + 1].below;
        if (above == CLEARMAP_NOWHERE && below == CLEARMAP_NOWHERE) continue;
        bool is_above = below == CLEARMAP_NOWHERE
                        || (above != CLEARMAP_NOWHERE && y - above <= below - y);
        spots[count++] = (struct column){(int16_t)x, (int16_t)(is_above ? above : below)};
    }
    return count;
}

/* What a table is written to: one of the arrays, the others are null; and what distances cost. */
struct output {
    clearmap_near *nears;
    uint32_t *distances;
    uint8_t *costs;
    const uint8_t *table;
    size_t entries, room;
};

/* The answer of a cell, by its place among those that are asked for. */
static void put(const struct output *o, size_t k, clearmap_near best) {
    if (o->nears) o->nears[k] = best;
    else if (o->distances) o->distances[k] = best.dist;
    else {
        bool is_far = best.dist == CLEARMAP_NO_OBSTACLE || best.dist >= o->entries;
        o->costs[k] = o->table[is_far ? o->entries - 1 : best.dist];
    }
}

/* One row of a table, whose first cell has this place. */
static void write_row(const struct call *c, long y, const struct column *spots, long count,
                      const struct output *o, size_t from) {
    for (long x = 0, middle = 0; x < (long)c->width; x++) {
        clearmap_near best = nothing;
        while (middle < count && spots[middle].above < x) middle++;
        for (long k = middle; k < count && measure(c, spots[k].above - x, 0) <= best.dist; k++)
            consider(c, x, y, spots[k].above, spots[k].below, &best);
        for (long k = middle; k-- > 0 && measure(c, spots[k].above - x, 0) <= best.dist;)
            consider(c, x, y, spots[k].above, spots[k].below, &best);
        put(o, from + (size_t)x, best);
    }
}

static void write_rows(const struct call *c, uint32_t y0, uint32_t y1, struct column *columns,
                       const struct output *o) {
    size_t width = c->width;
    for (long x = 0; x < (long)width + 2; x++)
        columns[x] = (struct column){CLEARMAP_NOWHERE, -1};
    for (long y = -1; y < (long)y1; y++) {
        to_row(c, y, columns);
        if (y < (long)y0) continue;
        long count = row_spots(c, y, columns, columns + width + 2);
        size_t from = (size_t)(y - y0) * width;
        write_row(c, y, columns + width + 2, count, o, from);
    }
}

static uint32_t table(struct call c, uint32_t y0, uint32_t y1, struct output o) {
    void *answers = o.nears ? (void *)o.nears : o.distances ? (void *)o.distances : o.costs;
    size_t size = o.nears ? sizeof *o.nears : o.distances ? sizeof *o.distances : 1;
    given(answers, o.room, size, size == 1 ? 1 : _Alignof(uint32_t));
    struct memory costs = o.costs ? given(o.table, o.entries, 1, 1) : (struct memory){NULL, 0};
    uint32_t sum = read_all(costs), status = map_status(&c);
    if (status) return status;
    if (o.costs && !o.entries) return CLEARMAP_COSTS;
    if (y1 < y0 || c.height < y1) return CLEARMAP_OUTSIDE;
    if (o.room < (size_t)(y1 - y0) * c.width) return CLEARMAP_ROOM;
    if ((status = range_status(&c))) return status;
    size_t copy = ((size_t)c.width + 63) / 64 * 8 * c.height;
    struct column *columns = malloc(copy + 280u * c.width + 1700);
    if (!columns) return CLEARMAP_MEMORY;
    apart(costs, (struct memory){answers, (size_t)(y1 - y0) * c.width * size});
    begin(&c, answers, (size_t)(y1 - y0) * c.width * size);
    write_rows(&c, y0, y1, columns, &o);
    free(columns);
    duty(sum == read_all(costs), "a thread has written a table that a call reads");
    return done(&c);
}

/* ---- Queries --------------------------------------------------------------------------------- */

static uint32_t at(struct call c, uint32_t x, uint32_t y, clearmap_near *near) {
    given(near, 1, sizeof *near, _Alignof(clearmap_near));
    uint32_t status = map_status(&c);
    if (!status && (x >= c.width || y >= c.height)) status = CLEARMAP_OUTSIDE;
    if (status || (status = range_status(&c))) return status;
    begin(&c, near, sizeof *near);
    find_bounds(&c);
    *near = search(&c, x, y);
    return done(&c);
}

/* No obstacle is found, with a cell that is in no map. */
static void find_none(clearmap_found *found) {
    uint16_t odd = (uint16_t)((uintptr_t)found >> 2 | 1u << 15);
    *found = (clearmap_found){{odd, (uint16_t)~(odd >> 1)}, nothing};
}

static uint32_t rect(struct call c, uint32_t x0, uint32_t y0, uint32_t x1, uint32_t y1,
                     clearmap_found *found) {
    given(found, 1, sizeof *found, _Alignof(clearmap_found));
    uint32_t status = map_status(&c);
    bool is_inside = x0 < x1 && x1 <= c.width && y0 < y1 && y1 <= c.height;
    if (!status && !is_inside) status = CLEARMAP_OUTSIDE;
    if (status || (status = range_status(&c))) return status;
    begin(&c, found, sizeof *found);
    find_bounds(&c);
    find_none(found);
    for (uint32_t y = y0; y < y1 && found->near.dist; y++)
        for (uint32_t x = x0; x < x1 && found->near.dist; x++) {
            clearmap_near near = search(&c, x, y);
            if (near.dist < found->near.dist)
                *found = (clearmap_found){{(uint16_t)x, (uint16_t)y}, near};
        }
    return done(&c);
}

static uint32_t path_status(const struct call *c, const clearmap_cell *points, size_t count) {
    if (count < 1 || count > MOST_POINTS) return CLEARMAP_POINTS;
    for (size_t k = 0; k < count; k++)
        if (points[k].x >= c->width || points[k].y >= c->height) return CLEARMAP_OUTSIDE;
    for (size_t k = 1; k < count; k++)
        if (points[k].x != points[k - 1].x && points[k].y != points[k - 1].y)
            return CLEARMAP_CROOKED;
    return CLEARMAP_DONE;
}

static uint16_t towards(uint16_t from, uint16_t to) {
    return (uint16_t)(from + (from < to) - (from > to));
}

/* The cells of a path, up to the first below `below` or, where it isn't to stop there, all. */
static uint32_t path(struct call c, const clearmap_cell *points, size_t count, uint32_t below,
                     bool stops, clearmap_found *found) {
    struct memory line = given(points, count, sizeof *points, _Alignof(clearmap_cell));
    given(found, 1, sizeof *found, _Alignof(clearmap_found));
    uint32_t sum = read_all(line), status = map_status(&c);
    if (!status) status = path_status(&c, points, count);
    if (status || (status = range_status(&c))) return status;
    apart(line, (struct memory){found, sizeof *found});
    begin(&c, found, sizeof *found);
    find_bounds(&c);
    find_none(found);
    clearmap_cell cell = points[0];
    for (size_t next = 1;; cell.x = towards(cell.x, points[next].x),
                cell.y = towards(cell.y, points[next].y)) {
        clearmap_near near = search(&c, cell.x, cell.y);
        if (near.dist < below) {
            *found = (clearmap_found){cell, near};
            below = near.dist;
            if (stops) break;
        }
        while (next < count && cell.x == points[next].x && cell.y == points[next].y) next++;
        if (next == count) break;
    }
    duty(sum == read_all(line), "a thread has written a path that a call reads");
    return done(&c);
}

/* ---- Lists of cells -------------------------------------------------------------------------- */

/* The status of a call for the cells of a list; tells which is the first that isn't in the map. */
static uint32_t list_status(const struct call *c, const clearmap_cell *cells, size_t count,
                            size_t room, size_t *wrong) {
    uint32_t status = map_status(c);
    if (status) return status;
    for (size_t k = 0; k < count; k++)
        if (cells[k].x >= c->width || cells[k].y >= c->height) {
            *wrong = k;
            return CLEARMAP_OUTSIDE;
        }
    return room < count ? CLEARMAP_ROOM : range_status(c);
}

/* The answers for the cells of a list: nearest obstacles or, where nears is null, bytes. */
static uint32_t list(struct call c, const clearmap_cell *cells, size_t count, uint32_t d,
                     clearmap_near *nears, uint8_t *clear, size_t room, size_t *wrong) {
    struct memory asked = given(cells, count, sizeof *cells, _Alignof(clearmap_cell));
    struct memory told = nears ? given(nears, room, sizeof *nears, _Alignof(clearmap_near))
                               : given(clear, room, 1, 1);
    struct memory which = given(wrong, 1, sizeof *wrong, _Alignof(size_t));
    uint32_t sum = read_all(asked);
    apart(which, asked), apart(which, told), apart(which, c.read), apart(which, c.layout);
    uint32_t status = list_status(&c, cells, count, room, wrong);
    if (status) return status;
    told.size = nears ? count * sizeof *nears : count;
    apart(asked, told);
    begin(&c, nears ? (void *)nears : clear, told.size);
    find_bounds(&c);
    for (size_t k = 0; k < count; k++) {
        clearmap_near near = search(&c, cells[k].x, cells[k].y);
        if (nears) nears[k] = near;
        else clear[k] = near.dist == CLEARMAP_NO_OBSTACLE || near.dist >= d;
    }
    duty(sum == read_all(asked), "a thread has written a list that a call reads");
    return done(&c);
}

/* ---- Rectangles ------------------------------------------------------------------------------ */

/*
 * Writes the cells of a rectangle. Bits that marks hid, and those past the edge, become others.
 * Where it paints, no band that it meets has a mark any more.
 */
static uint32_t draw_on(uint64_t *words, size_t length, const clearmap_bits *map, clearmap_bits *layout,
                     uint32_t x0, uint32_t y0, uint32_t x1, uint32_t y1) {
    struct call c = over_bits(words, length, map, 0, 0);
    uint32_t status = map_status(&c);
    bool is_inside = x0 < x1 && x1 <= c.width && y0 < y1 && y1 <= c.height;
    if (!status && !is_inside) status = CLEARMAP_OUTSIDE;
    if (status) return status;
    apart(c.read, c.layout);
    uint32_t first = layout ? y0 / 64 * 64 : y0, last = layout ? (y1 - 1) / 64 * 64 + 64 : y1;
    for (uint32_t y = first; y < last && y < c.height; y++)
        for (uint32_t x = 0; x < c.across * 64; x++) {
            bool is_in = x0 <= x && x < x1 && y0 <= y && y < y1;
            bool is_dark = x >= c.width ? layout != NULL : is_in ? layout != NULL
                                                                 : is_obstacle(&c, x, y);
            if (!layout && !is_in) continue;
            uint64_t *word = &words[y * c.stride + x / 64], bit = 1ull << (x % 64);
            *word = is_dark ? *word | bit : *word & ~bit;
        }
    for (uint32_t band = y0 / 64; layout && band <= (y1 - 1) / 64; band++) {
        layout->blank_bands &= ~(1ull << band);
        if (layout->tiles) words[layout->tiles + band] = 0;
    }
    return CLEARMAP_DONE;
}

/* ---- Footprints ------------------------------------------------------------------------------ */

/* A list of polygons with `count` corners each. */
struct rings {
    const clearmap_corner *corners;
    struct memory read;
    size_t length, count;
    uint32_t sum;
};

static struct rings taken(const clearmap_corner *corners, size_t length, size_t count) {
    struct rings r = {.corners = corners, .length = length, .count = count};
    r.read = given(corners, length, sizeof *corners, _Alignof(clearmap_corner));
    r.sum = read_all(r.read);
    return r;
}

/* Whether the point (px, py) is on the inner side of a to b. */
static bool is_inner(clearmap_corner a, clearmap_corner b, int64_t px, int64_t py) {
    return (b.x - (int64_t)a.x) * (py - a.y) > (b.y - (int64_t)a.y) * (px - a.x);
}

static bool is_convex(const clearmap_corner *ring, size_t count) {
    size_t down = 0;
    for (size_t k = 0; k < count; k++) {
        clearmap_corner a = ring[k], b = ring[(k + 1) % count], c = ring[(k + 2) % count];
        if (!is_inner(a, b, c.x, c.y)) return false;
        down += b.y < c.y && !(a.y < b.y);
    }
    return down == 1;
}

static uint32_t rings_status(const struct rings *r) {
    const int32_t most = (1 << 30) - 1;
    if (r->count < 3 || r->count > 128 || r->length % r->count) return CLEARMAP_CORNERS;
    for (size_t k = 0; k < r->length; k++)
        if (labs(r->corners[k].x) > most || labs(r->corners[k].y) > most) return CLEARMAP_FAR;
    for (size_t k = 0; k < r->length; k += r->count)
        if (!is_convex(r->corners + k, r->count)) return CLEARMAP_BENT;
    return CLEARMAP_DONE;
}

/* Whether the cell's square and a polygon share a point inside both: no axis parts them. */
static bool meets(const clearmap_corner *ring, size_t count, long x, long y) {
    int64_t x0 = 65536 * x, x1 = x0 + 65536, y0 = 65536 * y, y1 = y0 + 65536;
    bool left = false, right = false, above = false, below = false;
    for (size_t k = 0; k < count; k++) {
        clearmap_corner a = ring[k], b = ring[(k + 1) % count];
        left = left || a.x < x1, right = right || a.x > x0;
        above = above || a.y < y1, below = below || a.y > y0;
        if (!is_inner(a, b, x0, y0) && !is_inner(a, b, x1, y0) && !is_inner(a, b, x0, y1)
            && !is_inner(a, b, x1, y1))
            return false;
    }
    return left && right && above && below;
}

static bool hits_map(const struct call *c, const clearmap_corner *ring, size_t count) {
    long width = c->width, height = c->height;
    int64_t left = INT32_MAX, right = INT32_MIN, top = INT32_MAX, below = INT32_MIN;
    for (size_t k = 0; k < count; k++) {
        left = smallest(left, ring[k].x), right = largest(right, ring[k].x);
        top = smallest(top, ring[k].y), below = largest(below, ring[k].y);
    }
    bool is_off = left < 0 || top < 0 || right > 65536 * width || below > 65536 * height;
    if (c->edge == CLEARMAP_WALL && is_off) return true;
    long y1 = smallest(height, below / 65536 + 1), x1 = smallest(width, right / 65536 + 1);
    for (long y = largest(0, top / 65536); y < y1; y++)
        for (long x = largest(0, left / 65536); x < x1; x++) {
            if (!bits_from(c, x, y)) x |= 63;
            else if (is_obstacle(c, x, y) && meets(ring, count, x, y)) return true;
        }
    return false;
}

static uint32_t hits_many(struct call c, struct rings r, uint8_t *hits, size_t room) {
    struct memory written = given(hits, room, 1, 1);
    uint32_t status = map_status(&c);
    if (!status) status = rings_status(&r);
    if (!status && room < r.length / r.count) status = CLEARMAP_ROOM;
    if (status || (status = range_status(&c))) return status;
    apart(r.read, written);
    begin(&c, hits, r.length / r.count);
    for (size_t k = 0; k < r.length / r.count; k++)
        hits[k] = hits_map(&c, r.corners + k * r.count, r.count);
    duty(r.sum == read_all(r.read), "a thread has written corners that a call reads");
    return done(&c);
}

#define HITS(kind, item)                                                                          \
    uint32_t clearmap_##kind##_hits(const item *items, size_t length, const clearmap_##kind *map, \
                                    clearmap_edge edge, const clearmap_corner *corners,           \
                                    size_t corners_length, uint8_t *hit) {                        \
        return hits_many(over_##kind(items, length, map, 0, edge),                                \
                         taken(corners, corners_length, corners_length), hit, 1);                 \
    }                                                                                             \
    uint32_t clearmap_##kind##_hits_many(const item *items, size_t length,                        \
                                         const clearmap_##kind *map, clearmap_edge edge,          \
                                         const clearmap_corner *corners, size_t corners_length,   \
                                         size_t count, uint8_t *hits, size_t hits_length) {       \
        return hits_many(over_##kind(items, length, map, 0, edge),                                \
                         taken(corners, corners_length, count), hits, hits_length);               \
    }

HITS(bytes, uint8_t)
HITS(bits, uint64_t)

/* ---- The calls of the header ----------------------------------------------------------------- */

const char *clearmap_version(void) { return CLEARMAP_VERSION; }

const char *clearmap_status_text(uint32_t status) {
    static const char *const texts[] = {
        "0: no fault", "1: sides", "2: the stride", "3: the length", "4: the metric",
        "5: the edge", "6: how many points", "7: not in the map", "8: crooked", "9: the room",
        "10: malloc", "11: low, high", "12: the tiles", "13: no costs",
        "14: how many corners", "15: far", "16: bent"};
    return status < sizeof texts / sizeof *texts ? texts[status] : "no status";
}

uint32_t clearmap_pack(const uint8_t *bytes, size_t bytes_length, const clearmap_bytes *map,
                       uint64_t *words, size_t words_length, clearmap_bits *bits) {
    struct call c = over_bytes(bytes, bytes_length, map, 0, 0);
    given(words, words_length, sizeof *words, _Alignof(uint64_t));
    struct memory layout = given(bits, 1, sizeof *bits, _Alignof(clearmap_bits));
    uint32_t status = map_status(&c);
    size_t across = (c.across + 63) / 64;
    if (!status && words_length < c.height * across) status = CLEARMAP_ROOM;
    if (status || (status = range_status(&c))) return status;
    apart(layout, (struct memory){words, c.height * across * sizeof *words});
    begin(&c, words, c.height * across * sizeof *words);
    begin(&c, bits, sizeof *bits);
    *bits = (clearmap_bits){c.width, c.height, across, UINT64_MAX, 0};
    memset(words, 0, c.height * across * sizeof *words);
    for (long y = 0; y < (long)c.height; y++)
        for (long x = 0; x < (long)c.width; x++) {
            if (!is_obstacle(&c, x, y)) continue;
            words[(size_t)y * across + (size_t)x / 64] |= 1ull << (x % 64);
            bits->blank_bands &= ~(1ull << (y / 64));
        }
    return done(&c);
}

uint32_t clearmap_mark(uint64_t *words, size_t words_length, clearmap_bits *map, size_t tiles) {
    struct call c = over_bits(words, words_length, map, 0, 0);
    uint64_t marks[MOST_SIDE / 64];
    uint32_t status = map_status(&c);
    if (status || (status = marks_status(&c, tiles))) return status;
    apart(c.read, c.layout);
    memset(marks, 0xff, sizeof marks);
    for (long y = 0; y < (long)c.height; y++)
        for (long x = 0; x < (long)c.width; x++)
            if (is_obstacle(&c, x, y)) marks[y / 64] &= ~(1ull << (x / 64));
    uint32_t checked = done(&c);
    map->blank_bands = 0;
    for (size_t band = 0; band < MOST_SIDE / 64; band++)
        map->blank_bands |= (uint64_t)(marks[band] == UINT64_MAX) << band;
    map->tiles = tiles;
    memcpy(words + tiles, marks, (c.height + 63) / 64 * sizeof *marks);
    return checked;
}

uint32_t clearmap_unpack(const uint64_t *words, size_t words_length, const clearmap_bits *map,
                         uint8_t free, uint8_t obstacle, uint8_t *bytes, size_t bytes_length) {
    struct call c = over_bits(words, words_length, map, 0, 0);
    given(bytes, bytes_length, 1, 1);
    uint32_t status = map_status(&c);
    if (!status && bytes_length < (size_t)c.width * c.height) status = CLEARMAP_ROOM;
    if (status) return status;
    begin(&c, bytes, (size_t)c.width * c.height);
    for (long y = 0; y < (long)c.height; y++)
        for (long x = 0; x < (long)c.width; x++)
            bytes[(size_t)y * c.width + (size_t)x] = is_obstacle(&c, x, y) ? obstacle : free;
    return done(&c);
}

uint32_t clearmap_paint(uint64_t *words, size_t words_length, clearmap_bits *map, uint32_t x0,
                        uint32_t y0, uint32_t x1, uint32_t y1) {
    return draw_on(words, words_length, map, map, x0, y0, x1, y1);
}

uint32_t clearmap_clear(uint64_t *words, size_t words_length, const clearmap_bits *map, uint32_t x0,
                        uint32_t y0, uint32_t x1, uint32_t y1) {
    return draw_on(words, words_length, map, NULL, x0, y0, x1, y1);
}

/* The calls over one kind of map: ITEMS and LENGTH as the header names them. */
#define CALLS(kind, item)                                                                         \
    uint32_t clearmap_##kind##_distances(const item *items, size_t length,                        \
                                         const clearmap_##kind *map, clearmap_metric metric,      \
                                         clearmap_edge edge, uint32_t y0, uint32_t y1,            \
                                         uint32_t *distances, size_t room) {                      \
        given(distances, room, sizeof *distances, _Alignof(uint32_t));                            \
        return table(over_##kind(items, length, map, metric, edge), y0, y1,                       \
                     (struct output){.distances = distances, .room = room});                      \
    }                                                                                             \
    uint32_t clearmap_##kind##_nearest(const item *items, size_t length,                          \
                                       const clearmap_##kind *map, clearmap_metric metric,        \
                                       clearmap_edge edge, uint32_t y0, uint32_t y1,              \
                                       clearmap_near *nears, size_t room) {                       \
        given(nears, room, sizeof *nears, _Alignof(clearmap_near));                               \
        return table(over_##kind(items, length, map, metric, edge), y0, y1,                       \
                     (struct output){.nears = nears, .room = room});                              \
    }                                                                                             \
    uint32_t clearmap_##kind##_costs(const item *items, size_t length,                            \
                                     const clearmap_##kind *map, clearmap_metric metric,          \
                                     clearmap_edge edge, const uint8_t *costs, size_t entries,    \
                                     uint32_t y0, uint32_t y1, uint8_t *told, size_t room) {      \
        given(told, room, 1, 1);                                                                  \
        return table(over_##kind(items, length, map, metric, edge), y0, y1,                       \
                     (struct output){.costs = told, .table = costs, .entries = entries,           \
                                     .room = room});                                              \
    }                                                                                             \
    uint32_t clearmap_##kind##_at_many(const item *items, size_t length,                          \
                                       const clearmap_##kind *map, clearmap_metric metric,        \
                                       clearmap_edge edge, const clearmap_cell *cells,            \
                                       size_t cells_length, clearmap_near *nears, size_t room,    \
                                       size_t *wrong) {                                           \
        given(nears, room, sizeof *nears, _Alignof(clearmap_near));                               \
        return list(over_##kind(items, length, map, metric, edge), cells, cells_length, 0,        \
                    nears, NULL, room, wrong);                                                    \
    }                                                                                             \
    uint32_t clearmap_##kind##_clear_many(const item *items, size_t length,                       \
                                          const clearmap_##kind *map, clearmap_metric metric,     \
                                          clearmap_edge edge, const clearmap_cell *cells,         \
                                          size_t cells_length, uint32_t d, uint8_t *clear,        \
                                          size_t room, size_t *wrong) {                           \
        given(clear, room, 1, 1);                                                                 \
        return list(over_##kind(items, length, map, metric, edge), cells, cells_length, d,        \
                    NULL, clear, room, wrong);                                                    \
    }                                                                                             \
    uint32_t clearmap_##kind##_at(const item *items, size_t length, const clearmap_##kind *map,   \
                                  clearmap_metric metric, clearmap_edge edge, uint32_t x,         \
                                  uint32_t y, clearmap_near *near) {                              \
        return at(over_##kind(items, length, map, metric, edge), x, y, near);                     \
    }                                                                                             \
    uint32_t clearmap_##kind##_rect(const item *items, size_t length, const clearmap_##kind *map, \
                                    clearmap_metric metric, clearmap_edge edge, uint32_t x0,      \
                                    uint32_t y0, uint32_t x1, uint32_t y1,                        \
                                    clearmap_found *found) {                                      \
        return rect(over_##kind(items, length, map, metric, edge), x0, y0, x1, y1, found);        \
    }                                                                                             \
    uint32_t clearmap_##kind##_path(const item *items, size_t length, const clearmap_##kind *map, \
                                    clearmap_metric metric, clearmap_edge edge,                   \
                                    const clearmap_cell *points, size_t points_length,            \
                                    clearmap_found *found) {                                      \
        return path(over_##kind(items, length, map, metric, edge), points, points_length,         \
                    CLEARMAP_NO_OBSTACLE, false, found);                                          \
    }                                                                                             \
    uint32_t clearmap_##kind##_clear_of(const item *items, size_t length,                         \
                                        const clearmap_##kind *map, clearmap_metric metric,       \
                                        clearmap_edge edge, const clearmap_cell *points,          \
                                        size_t points_length, uint32_t d,                         \
                                        clearmap_found *found) {                                  \
        return path(over_##kind(items, length, map, metric, edge), points, points_length, d,      \
                    true, found);                                                                 \
    }

CALLS(bytes, uint8_t)
CALLS(bits, uint64_t)
