/* The parts of libclearmap in C: its heap over malloc, its version, the status texts. */
#include "clearmap.h"

#include <stdbool.h>
#include <stddef.h>
#include <stdlib.h>

/* The allocator that the proved part calls: whether there is memory, and where. */
struct tried {
    bool ok;
    void *place;
};

/* The place of a request that is refused: nobody writes there. */
static const char nothing;

/* What malloc aligns to. The library needs no more, and is refused more. */
enum { ALIGNED = 16 };
_Static_assert(_Alignof(max_align_t) >= ALIGNED, "malloc aligns to less");

struct tried rattle_alloc(size_t size, size_t align) {
    void *place = align > ALIGNED ? NULL : malloc(size ? size : align);
    return (struct tried){place != NULL, place ? place : (void *)&nothing};
}

struct tried rattle_realloc(void *old, size_t kept, size_t size, size_t align) {
    (void)kept;
    void *place = align > ALIGNED ? NULL : realloc(old, size ? size : align);
    return (struct tried){place != NULL, place ? place : (void *)&nothing};
}

void rattle_dealloc(void *place) { free(place); }

const char *clearmap_version(void) { return CLEARMAP_VERSION; }

const char *clearmap_status_text(uint32_t status) {
    switch (status) {
    case CLEARMAP_DONE: return "done";
    case CLEARMAP_SIZE: return "a side of the map is 0, or over 4096";
    case CLEARMAP_STRIDE: return "the stride is less than a row, or 2^32 or more";
    case CLEARMAP_LENGTH: return "the map's memory ends before its last row does";
    case CLEARMAP_TILES: return "the marks of tiles lie among the rows, or the memory ends first";
    case CLEARMAP_METRIC: return "there is no metric of this number";
    case CLEARMAP_EDGE: return "there is no edge of this number";
    case CLEARMAP_COSTS: return "a table of costs has no entry";
    case CLEARMAP_POINTS: return "a path has no point, or over 1000";
    case CLEARMAP_OUTSIDE: return "a cell, row, rectangle or point is not in the map, or is empty";
    case CLEARMAP_CROOKED: return "a point of a path is not in the row or column of the one before";
    case CLEARMAP_CORNERS: return "a polygon has under 3 corners, or over 128, or the last too few";
    case CLEARMAP_FAR: return "a corner of a polygon is 16,384 columns or rows away, or more";
    case CLEARMAP_BENT: return "a polygon is not convex, or does not turn from x to y";
    case CLEARMAP_ROOM: return "there is too little room for the answers";
    case CLEARMAP_RANGE: return "low is above high, so that no byte marks an obstacle";
    case CLEARMAP_MEMORY: return "malloc had no memory for the call";
    default: return "there is no status of this number";
    }
}
