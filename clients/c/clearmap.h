/*
 * libclearmap: exact distances to the nearest obstacle of a map, over the caller's own memory.
 *
 * What each call does is proved (docs/use/LIBRARY.md, docs/trust/PROOFS.md); this header, its
 * clearmap_clear_distance and the three functions over malloc in clearmap.c are not.
 *
 * A map has 1 to 4096 columns and 1 to 4096 rows. Cell (x, y) lies in column x, counted from the
 * left, and row y, counted from the top, both from 0.
 *
 *     clearmap_bytes map = {.width = 640, .height = 480, .stride = 640, .low = 100, .high = 100};
 *     clearmap_near near;
 *     uint32_t status = clearmap_bytes_at(cells, sizeof cells, &map, CLEARMAP_EUCLID2,
 *                                         CLEARMAP_OPEN, x, y, &near);
 *     if (status == CLEARMAP_DONE && near.dist != CLEARMAP_NO_OBSTACLE)
 *         metres = sqrt(near.dist) * metres_per_cell; // from middle to middle
 *
 * Status. Each call returns CLEARMAP_DONE (0), or what is wrong with it. A call with another status
 * has written nothing, but for *wrong of a list. Of several faults, the status is the first in the
 * order in which statuses are listed below.
 *
 * Threads. The library keeps no state between calls and starts no thread. Any thread may make any
 * call at any time, even while others read the same map. No other thread may touch what a call
 * writes, or a map that a thread writes, in the meantime. To share a map's rows among threads, let
 * each compute some rows (y0 to y1 - 1) into memory of its own.
 *
 * Caller's duties, which nothing checks: no pointer is null, even if its length is 0; each length
 * is true, and counts items, not bytes; pointers are aligned for their types; what a call writes
 * overlaps neither what it reads nor what else it writes.
 * A call that allocates memory is not made from a signal handler, nor in the forked child of a
 * process that has threads.
 *
 * Memory. Only the calls `distances`, `nearest` and `costs` can return CLEARMAP_MEMORY: they ask
 * malloc for a copy of the map in bits, an eighth of a byte per cell in rows of whole words, and
 * for at most 280 bytes per column and 1700 more, and free all of it before they return. The other
 * calls allocate nothing. The stack grows by at most 6 KB.
 *
 * On x86-64 the library needs SSE 4.2 (x86-64-v2). Without it the system's loader refuses the
 * shared library, from glibc 2.33 on; in a program with the static one nothing checks it.
 */
#ifndef CLEARMAP_H
#define CLEARMAP_H

#include <stddef.h>
#include <stdint.h>
#include <string.h>

#ifdef __cplusplus
extern "C" {
#endif

/*
 * The compiler warns where a status isn't looked at. After a refused call the answer is what was
 * there before it, which may be another path's "clear".
 */
#if defined __cplusplus && __cplusplus >= 201703L
#define CLEARMAP_CHECKED [[nodiscard]]
#elif defined __GNUC__
#define CLEARMAP_CHECKED __attribute__((warn_unused_result))
#else
#define CLEARMAP_CHECKED
#endif

#define CLEARMAP_VERSION_MAJOR 0
#define CLEARMAP_VERSION_MINOR 4
#define CLEARMAP_VERSION_PATCH 0
#define CLEARMAP_VERSION "0.4.0"

/* The version of the library that is linked, as "0.4.0". It is constant, and never null. */
const char *clearmap_version(void);

/* ---- Statuses -------------------------------------------------------------------------------- */

enum {
    CLEARMAP_DONE = 0,     /* the call is done */
    CLEARMAP_SIZE = 1,     /* a side of the map is 0, or over 4096 */
    CLEARMAP_STRIDE = 2,   /* the stride is less than a row, or 2^32 or more */
    CLEARMAP_LENGTH = 3,   /* the map's memory ends before its last row does */
    CLEARMAP_TILES = 12,   /* the marks of tiles lie among the rows, or the map's memory ends before
                              they do */
    CLEARMAP_METRIC = 4,   /* there is no metric of this number */
    CLEARMAP_EDGE = 5,     /* there is no edge of this number */
    CLEARMAP_COSTS = 13,   /* a table of costs has no entry */
    CLEARMAP_POINTS = 6,   /* a path has no point, or over 1000 */
    CLEARMAP_OUTSIDE = 7,  /* a cell, row, rectangle or point is not in the map; or rows end before
                              they begin; or a rectangle has no cell */
    CLEARMAP_CROOKED = 8,  /* a point of a path is neither in the row nor in the column of the point
                              before it */
    CLEARMAP_CORNERS = 14, /* a polygon has under 3 corners, or over 128; or the corners of the last
                              polygon of a list are too few */
    CLEARMAP_FAR = 15,     /* a corner of a polygon is 16,384 columns or rows away, or more */
    CLEARMAP_BENT = 16,    /* a polygon is not convex, or does not turn from x to y, at some corner;
                              or it goes round more than once */
    CLEARMAP_ROOM = 9,     /* there is too little room for the answers */
    CLEARMAP_RANGE = 11,   /* low is above high, so that no byte marks an obstacle */
    CLEARMAP_MEMORY = 10   /* malloc had no memory for the call */
};

/* What a status says, in one line without its end. It is constant, and never null. */
const char *clearmap_status_text(uint32_t status);

/* ---- Metrics, edges, answers ----------------------------------------------------------------- */

/*
 * The unit of all distances, from the middle of a cell to the middle of an obstacle's. From any
 * point of the one to any point of the other it may be less, by up to sqrt(2) cells.
 */
enum clearmap_metrics {
    CLEARMAP_EUCLID2 = 0, /* dx * dx + dy * dy: the square of the Euclidean distance */
    CLEARMAP_CITY = 1,    /* dx + dy: steps to the four neighbours */
    CLEARMAP_CHESS = 2    /* max(dx, dy): steps to the eight neighbours */
};

enum clearmap_edges {
    CLEARMAP_OPEN = 0, /* nothing lies around the map */
    CLEARMAP_WALL = 1  /* each cell of the frame around the map is an obstacle too */
};

/* Numbers of 32 bits. C's compilers warn (-Wenum-conversion) where one stands for the other. */
#ifdef __cplusplus
typedef uint32_t clearmap_metric;
typedef uint32_t clearmap_edge;
#else
typedef enum clearmap_metrics clearmap_metric;
typedef enum clearmap_edges clearmap_edge;
#endif

/* The distance that means no obstacle at all. No obstacle is that far away. */
#define CLEARMAP_NO_OBSTACLE UINT32_MAX

/* The column and the row that mean no obstacle, both of them. No obstacle has them. */
#define CLEARMAP_NOWHERE (-2)

/* A column and a row. C cuts a larger number to its last 16 bits in silence: compare it first. */
typedef struct clearmap_cell {
    uint16_t x, y;
} clearmap_cell;

/*
 * The nearest obstacle of a cell: its distance, its column and its row. In the frame around a map
 * either may be -1, or the number of columns or rows. Of several at the least distance it is the
 * one of the least column; of those the one in the fewest rows away, and of two such the upper.
 * Where there is no obstacle: CLEARMAP_NO_OBSTACLE, and CLEARMAP_NOWHERE for both x and y. Neither
 * -1 nor -2 is an index of an array: look at dist, and with a wall at both, before x and y are one.
 */
typedef struct clearmap_near {
    uint32_t dist;
    int16_t x, y;
} clearmap_near;

/* A cell and its nearest obstacle. Where near says that there is none, the cell has no meaning. */
typedef struct clearmap_found {
    clearmap_cell cell;
    clearmap_near near;
} clearmap_found;

/* ---- Maps ------------------------------------------------------------------------------------ */

/*
 * The layout of a map in bytes: cell (x, y) is the byte at y * stride + x, and an obstacle where
 * low <= byte && byte <= high. The last row need not be padded. Where low is above high, as where
 * high is left out, each call over bytes has the status RANGE; no call over bits has it, and none
 * over bytes has TILES.
 */
typedef struct clearmap_bytes {
    uint32_t width;  /* columns, 1 to 4096 */
    uint32_t height; /* rows, 1 to 4096 */
    size_t stride;   /* bytes from one row to the next: width or more, below 2^32 */
    uint8_t low, high;
} clearmap_bytes;

/*
 * The layout of a map in bits: cell (x, y) is bit x % 64, from the lowest, of the word at y *
 * stride + x / 64, and an obstacle where that bit is 1 and no mark says that it is in a blank band
 * or tile. Bits past the last column may be anything.
 *
 * Bit k of blank_bands says that rows 64 k to 64 k + 63 are known to be blank: where it is 1 they
 * count as blank, WHATEVER THEIR WORDS SAY, and queries skip them. clearmap_pack sets it; if you
 * set a bit in row y afterwards, clear bit y / 64 of blank_bands too. 0, as where the field is left
 * out, is right for every map, and costs only time.
 *
 * The same is known of single tiles where tiles isn't 0. It is the index, after the last row, of
 * the first of (height + 63) / 64 more words, one for each 64 rows: where bit i of word tiles + k
 * is 1, columns 64 i to 64 i + 63 of rows 64 k to 64 k + 63 count as blank. clearmap_mark writes
 * them, and queries far from obstacles are faster by them. If you set a bit of cell (x, y)
 * afterwards, clear bit x / 64 of word tiles + y / 64 too. A part of a map, with other rows or
 * another first word, has other marks: set tiles and blank_bands to 0 there.
 */
typedef struct clearmap_bits {
    uint32_t width;  /* columns, 1 to 4096 */
    uint32_t height; /* rows, 1 to 4096 */
    size_t stride;   /* words from one row to the next: (width + 63) / 64 or more, below 2^32 */
    uint64_t blank_bands;
    size_t tiles; /* where the marks of tiles begin among the words; 0 where there are none */
} clearmap_bits;

/*
 * Packs a map in bytes into words, its rows one after another without a gap, and writes their
 * layout to *bits, whose stride is (width + 63) / 64 and whose tiles is 0. The bits past the last
 * column are 0.
 * words_length is at least (width + 63) / 64 * height; the rest stays as it is.
 * Status: SIZE, STRIDE, LENGTH, ROOM, RANGE.
 */
CLEARMAP_CHECKED
uint32_t clearmap_pack(const uint8_t *bytes, size_t bytes_length, const clearmap_bytes *map,
                       uint64_t *words, size_t words_length, clearmap_bits *bits);

/*
 * Marks the blank tiles of a map in bits: writes (height + 63) / 64 words from index `tiles` on,
 * and sets map->tiles and map->blank_bands. The map's cells stay as they are, and so do all other
 * words. `tiles` is (height - 1) * stride + (width + 63) / 64 or more, and words_length is at least
 * tiles + (height + 63) / 64.
 * IT BELIEVES THE MARKS THAT THE MAP HAS: what they say is blank stays so. To mark a map anew after
 * you set bits, set tiles and blank_bands to 0 first.
 * Status: SIZE, STRIDE, LENGTH, TILES.
 */
CLEARMAP_CHECKED
uint32_t clearmap_mark(uint64_t *words, size_t words_length, clearmap_bits *map, size_t tiles);

/*
 * Unpacks a map in bits into bytes, its rows one after another without a gap: the byte `obstacle`
 * for an obstacle, and `free` for any other cell. bytes_length is at least width * height; the rest
 * stays as it is.
 * Status: SIZE, STRIDE, LENGTH, TILES, ROOM.
 */
CLEARMAP_CHECKED
uint32_t clearmap_unpack(const uint64_t *words, size_t words_length, const clearmap_bits *map,
                         uint8_t free, uint8_t obstacle, uint8_t *bytes, size_t bytes_length);

/*
 * Makes each cell of columns x0 to x1 - 1 of rows y0 to y1 - 1 an obstacle; all others stay as they
 * are. No mark need be cleared by hand: paint clears those of the bands and tiles that it paints
 * in. Where a mark hid bits, these become 0 first, so that no other cell changes. Bits past the
 * last column may become others. Words that are neither in the map's rows nor marks stay as they
 * are.
 * Status: SIZE, STRIDE, LENGTH, TILES, OUTSIDE.
 */
CLEARMAP_CHECKED
uint32_t clearmap_paint(uint64_t *words, size_t words_length, clearmap_bits *map, uint32_t x0,
                        uint32_t y0, uint32_t x1, uint32_t y1);

/*
 * Makes each cell of the rectangle free, as paint makes it an obstacle. Marks stay as they are:
 * clearmap_mark finds the bands and tiles that are blank now.
 * Status: that of paint.
 */
CLEARMAP_CHECKED
uint32_t clearmap_clear(uint64_t *words, size_t words_length, const clearmap_bits *map, uint32_t x0,
                        uint32_t y0, uint32_t x1, uint32_t y1);

/* ---- All cells of some rows ------------------------------------------------------------------ */

/*
 * Writes the distances of the cells of rows y0 to y1 - 1, in row-major order. distances_length is
 * at least (y1 - y0) * width; the rest stays as it is.
 * Status: SIZE, STRIDE, LENGTH, TILES, METRIC, EDGE, OUTSIDE, ROOM, RANGE, MEMORY.
 */
CLEARMAP_CHECKED
uint32_t clearmap_bytes_distances(const uint8_t *bytes, size_t bytes_length,
                                  const clearmap_bytes *map, clearmap_metric metric,
                                  clearmap_edge edge, uint32_t y0, uint32_t y1, uint32_t *distances,
                                  size_t distances_length);
CLEARMAP_CHECKED
uint32_t clearmap_bits_distances(const uint64_t *words, size_t words_length,
                                 const clearmap_bits *map, clearmap_metric metric,
                                 clearmap_edge edge, uint32_t y0, uint32_t y1, uint32_t *distances,
                                 size_t distances_length);

/* The same, with the nearest obstacle of each cell. */
CLEARMAP_CHECKED
uint32_t clearmap_bytes_nearest(const uint8_t *bytes, size_t bytes_length,
                                const clearmap_bytes *map, clearmap_metric metric,
                                clearmap_edge edge, uint32_t y0, uint32_t y1, clearmap_near *nears,
                                size_t nears_length);
CLEARMAP_CHECKED
uint32_t clearmap_bits_nearest(const uint64_t *words, size_t words_length, const clearmap_bits *map,
                               clearmap_metric metric, clearmap_edge edge, uint32_t y0, uint32_t y1,
                               clearmap_near *nears, size_t nears_length);

/*
 * Writes the cost of each cell of rows y0 to y1 - 1, in row-major order, a byte a cell: table[d]
 * for the distance d, and the table's last entry for each distance past its end and where there is
 * no obstacle. table_length is 1 or more, and costs_length is at least (y1 - y0) * width; the rest
 * of costs stays as it is.
 *
 *     uint8_t table[26]; // by euclid2: 254 in an obstacle, less with each cell, 0 from 5 cells on
 *     for (int d = 0; d < 26; d++) table[d] = d < 25 ? 254 * exp(-sqrt(d)) : 0;
 *
 * Status: SIZE, STRIDE, LENGTH, TILES, METRIC, EDGE, COSTS, OUTSIDE, ROOM, RANGE, MEMORY.
 */
CLEARMAP_CHECKED
uint32_t clearmap_bytes_costs(const uint8_t *bytes, size_t bytes_length, const clearmap_bytes *map,
                              clearmap_metric metric, clearmap_edge edge, const uint8_t *table,
                              size_t table_length, uint32_t y0, uint32_t y1, uint8_t *costs,
                              size_t costs_length);
CLEARMAP_CHECKED
uint32_t clearmap_bits_costs(const uint64_t *words, size_t words_length, const clearmap_bits *map,
                             clearmap_metric metric, clearmap_edge edge, const uint8_t *table,
                             size_t table_length, uint32_t y0, uint32_t y1, uint8_t *costs,
                             size_t costs_length);

/* ---- Queries --------------------------------------------------------------------------------- */
/* They search outwards from the cells of the query, in place. They are faster over bits. */

/*
 * Writes the nearest obstacle of cell (x, y).
 * Status: SIZE, STRIDE, LENGTH, TILES, METRIC, EDGE, OUTSIDE, RANGE.
 */
CLEARMAP_CHECKED
uint32_t clearmap_bytes_at(const uint8_t *bytes, size_t bytes_length, const clearmap_bytes *map,
                           clearmap_metric metric, clearmap_edge edge, uint32_t x, uint32_t y,
                           clearmap_near *near);
CLEARMAP_CHECKED
uint32_t clearmap_bits_at(const uint64_t *words, size_t words_length, const clearmap_bits *map,
                          clearmap_metric metric, clearmap_edge edge, uint32_t x, uint32_t y,
                          clearmap_near *near);

/*
 * Writes the nearest obstacle of each of `cells_length` cells, in their order, any number of them.
 * nears_length is at least cells_length; the rest stays as it is. With the status OUTSIDE, *wrong
 * is the index of the first cell that is not in the map, and no answer is written; with any other
 * status *wrong stays as it is.
 * Status: SIZE, STRIDE, LENGTH, TILES, METRIC, EDGE, OUTSIDE, ROOM, RANGE.
 */
CLEARMAP_CHECKED
uint32_t clearmap_bytes_at_many(const uint8_t *bytes, size_t bytes_length,
                                const clearmap_bytes *map, clearmap_metric metric,
                                clearmap_edge edge, const clearmap_cell *cells, size_t cells_length,
                                clearmap_near *nears, size_t nears_length, size_t *wrong);
CLEARMAP_CHECKED
uint32_t clearmap_bits_at_many(const uint64_t *words, size_t words_length, const clearmap_bits *map,
                               clearmap_metric metric, clearmap_edge edge,
                               const clearmap_cell *cells, size_t cells_length,
                               clearmap_near *nears, size_t nears_length, size_t *wrong);

/*
 * Writes a byte for each of `cells_length` cells, in their order: 1 where no obstacle is nearer
 * than d, in the unit of the metric, and 0 where one is: whether each cell is clear of d, as a path
 * of it alone. 0 is clear everywhere, in obstacles too. Where no obstacle is nearer, it searches no
 * further than d, and is faster than at_many. clear_length is at least cells_length; the rest stays
 * as it is. *wrong is that of at_many.
 * Status: that of at_many.
 */
CLEARMAP_CHECKED
uint32_t clearmap_bytes_clear_many(const uint8_t *bytes, size_t bytes_length,
                                   const clearmap_bytes *map, clearmap_metric metric,
                                   clearmap_edge edge, const clearmap_cell *cells,
                                   size_t cells_length, uint32_t d, uint8_t *clear,
                                   size_t clear_length, size_t *wrong);
CLEARMAP_CHECKED
uint32_t clearmap_bits_clear_many(const uint64_t *words, size_t words_length,
                                  const clearmap_bits *map, clearmap_metric metric,
                                  clearmap_edge edge, const clearmap_cell *cells,
                                  size_t cells_length, uint32_t d, uint8_t *clear,
                                  size_t clear_length, size_t *wrong);

/*
 * Writes the first cell with the least distance in columns x0 to x1 - 1 of rows y0 to y1 - 1, in
 * row-major order, and its nearest obstacle; none if the map has no obstacle.
 * Status: SIZE, STRIDE, LENGTH, TILES, METRIC, EDGE, OUTSIDE, RANGE.
 */
CLEARMAP_CHECKED
uint32_t clearmap_bytes_rect(const uint8_t *bytes, size_t bytes_length, const clearmap_bytes *map,
                             clearmap_metric metric, clearmap_edge edge, uint32_t x0, uint32_t y0,
                             uint32_t x1, uint32_t y1, clearmap_found *found);
CLEARMAP_CHECKED
uint32_t clearmap_bits_rect(const uint64_t *words, size_t words_length, const clearmap_bits *map,
                            clearmap_metric metric, clearmap_edge edge, uint32_t x0, uint32_t y0,
                            uint32_t x1, uint32_t y1, clearmap_found *found);

/*
 * Writes the first cell with the least distance along a path, and its nearest obstacle; none if the
 * map has no obstacle. A path is 1 to 1000 points, each in the row or the column of the point
 * before it; its cells are the first point, and then those after each point up to the next.
 * Status: SIZE, STRIDE, LENGTH, TILES, METRIC, EDGE, POINTS, OUTSIDE, CROOKED, RANGE.
 */
CLEARMAP_CHECKED
uint32_t clearmap_bytes_path(const uint8_t *bytes, size_t bytes_length, const clearmap_bytes *map,
                             clearmap_metric metric, clearmap_edge edge,
                             const clearmap_cell *points, size_t points_length,
                             clearmap_found *found);
CLEARMAP_CHECKED
uint32_t clearmap_bits_path(const uint64_t *words, size_t words_length, const clearmap_bits *map,
                            clearmap_metric metric, clearmap_edge edge, const clearmap_cell *points,
                            size_t points_length, clearmap_found *found);

/*
 * Writes the first cell along a path whose distance is below d, in the unit of the metric, and its
 * nearest obstacle; none if the path is clear. 0 is clear everywhere, through obstacles too.
 *
 *     status = clearmap_bits_clear_of(words, length, &map, CLEARMAP_EUCLID2, CLEARMAP_OPEN, points,
 *                                     count, d, &found);
 *     is_clear = status == CLEARMAP_DONE && found.near.dist == CLEARMAP_NO_OBSTACLE;
 *
 * Status: that of a path.
 */
CLEARMAP_CHECKED
uint32_t clearmap_bytes_clear_of(const uint8_t *bytes, size_t bytes_length,
                                 const clearmap_bytes *map, clearmap_metric metric,
                                 clearmap_edge edge, const clearmap_cell *points,
                                 size_t points_length, uint32_t d, clearmap_found *found);
CLEARMAP_CHECKED
uint32_t clearmap_bits_clear_of(const uint64_t *words, size_t words_length,
                                const clearmap_bits *map, clearmap_metric metric,
                                clearmap_edge edge, const clearmap_cell *points,
                                size_t points_length, uint32_t d, clearmap_found *found);

/*
 * The d of clear_of by euclid2 for a round robot of this radius, both in metres (or both in another
 * unit): ceil((r + sqrt(2))^2), where r is the radius in cells. If the path is clear, no part of
 * the robot enters an obstacle's cell, wherever in the path's cells its middle is. The smaller
 * ceil(r^2) counts from middle to middle, as costmaps inflate: the robot may come nearer than r, by
 * up to sqrt(2) cells.
 *
 * It is 2 or more. UINT32_MAX, which no path is clear of but on a map without obstacles, for a
 * radius below 0 or of 65000 cells or more, a resolution that isn't above 0, and for either if it
 * is NaN or infinite, also under -ffast-math: by the bits of a double, whose order from 0 on is
 * that of the numbers.
 */
static inline uint32_t clearmap_clear_distance(double radius, double resolution) {
    const uint64_t sign = 1ull << 63, least = 1ull << 52, infinite = 0x7ffull << 52;
    uint64_t radius_bits, resolution_bits;
    memcpy(&radius_bits, &radius, sizeof radius_bits);
    memcpy(&resolution_bits, &resolution, sizeof resolution_bits);
    if (radius_bits >= infinite && radius_bits != sign) return UINT32_MAX;
    if (resolution_bits < least || resolution_bits >= infinite) return UINT32_MAX;
    const double cells = radius / resolution;
    if (!(cells < 65000)) return UINT32_MAX;
    const double square = 2 + (cells + 2.8284271247461903) * cells * (1 + 1e-12); /* rounded up */
    const uint32_t d = (uint32_t)square;
    return d < square ? d + 1 : d;
}

/* ---- Footprints ------------------------------------------------------------------------------ */

/*
 * A corner of a polygon, in steps of 1/65536 of a cell: the square of cell (x, y) reaches from
 * 65536 x to 65536 (x + 1) and from 65536 y to 65536 (y + 1). Its x and y are -(2^30 - 1) to
 * 2^30 - 1, less than 16,384 cells either way, on the map or off it.
 */
typedef struct clearmap_corner {
    int32_t x, y;
} clearmap_corner;

/*
 * Writes 1 to *hit where a polygon, as the outline of a robot at a pose, hits an obstacle, and 0
 * where it doesn't. It hits where it and an obstacle's square share a point inside both: to touch a
 * square isn't to hit it. With CLEARMAP_WALL it also hits where a corner is off the map: left of 0,
 * above 0, right of 65536 * width or below 65536 * height.
 * A polygon has 3 to 128 corners, and sides from each to the next and from the last to the first.
 * It is convex and turns from x to y, by the sign of the product of two sides that follow one
 * another, at each corner; on a map whose rows go down that looks clockwise.
 * Status: SIZE, STRIDE, LENGTH, TILES, EDGE, CORNERS, FAR, BENT, RANGE.
 */
CLEARMAP_CHECKED
uint32_t clearmap_bytes_hits(const uint8_t *bytes, size_t bytes_length, const clearmap_bytes *map,
                             clearmap_edge edge, const clearmap_corner *corners,
                             size_t corners_length, uint8_t *hit);
CLEARMAP_CHECKED
uint32_t clearmap_bits_hits(const uint64_t *words, size_t words_length, const clearmap_bits *map,
                            clearmap_edge edge, const clearmap_corner *corners,
                            size_t corners_length, uint8_t *hit);

/*
 * The same for many polygons of `count` corners each, one after another: writes a byte for each.
 * corners_length is a multiple of count, and hits_length at least corners_length / count; the rest
 * stays as it is. Where one polygon is refused, nothing is written for any.
 * Status: SIZE, STRIDE, LENGTH, TILES, EDGE, CORNERS, FAR, BENT, ROOM, RANGE.
 */
CLEARMAP_CHECKED
uint32_t clearmap_bytes_hits_many(const uint8_t *bytes, size_t bytes_length,
                                  const clearmap_bytes *map, clearmap_edge edge,
                                  const clearmap_corner *corners, size_t corners_length,
                                  size_t count, uint8_t *hits, size_t hits_length);
CLEARMAP_CHECKED
uint32_t clearmap_bits_hits_many(const uint64_t *words, size_t words_length,
                                 const clearmap_bits *map, clearmap_edge edge,
                                 const clearmap_corner *corners, size_t corners_length,
                                 size_t count, uint8_t *hits, size_t hits_length);

#ifdef __cplusplus
}
#endif
#endif
