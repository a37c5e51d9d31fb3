/*
 * Times queries of the library over bits with marks of blank tiles, of a raw PBM image, drawn as
 * queries/twin_tail.rs draws them: for each kind a line with the nanoseconds of a query, the least
 * of five rounds, and a sum of the answers.
 *     library_queries IMAGE
 */
#define _POSIX_C_SOURCE 199309L
#include "clearmap.h"

#include <stdio.h>
#include <stdlib.h>
#include <time.h>

#define POINTS 1000

static struct {
    clearmap_bits layout;
    uint64_t *words;
    size_t length;
} map;

static uint64_t state;

static uint64_t below(uint64_t end) {
    state ^= state << 13;
    state ^= state >> 7;
    state ^= state << 17;
    return (state >> 16) % end;
}

static clearmap_cell drawn_cell(uint32_t side) {
    uint16_t x = (uint16_t)below(side);
    uint16_t y = (uint16_t)below(side);
    return (clearmap_cell){x, y};
}

static uint16_t least(uint32_t one, uint32_t other) {
    return (uint16_t)(one < other ? one : other);
}

/* A coordinate, moved by -8 to 8 inside the map. */
static uint16_t moved(uint16_t from, uint16_t to, uint32_t side) {
    uint32_t sum = (uint32_t)from + to;
    return least(sum < 8 ? 0 : sum - 8, side - 1);
}

static void fill_walk(uint32_t side, clearmap_cell *points) {
    clearmap_cell point = drawn_cell(side);
    for (size_t i = 0; i < POINTS; ++i) {
        points[i] = point;
        uint16_t to = (uint16_t)below(17);
        if (below(2) == 0)
            point.x = moved(point.x, to, side);
        else
            point.y = moved(point.y, to, side);
    }
}

/* A number that distinguishes answers. */
static uint64_t sum_of(clearmap_found found) {
    if (found.near.dist == CLEARMAP_NO_OBSTACLE) return 1;
    return found.near.dist + 3ull * found.cell.x + 5ull * found.cell.y
           + 7ull * (uint64_t)abs(found.near.x) + 11ull * (uint64_t)abs(found.near.y);
}

#define MAP map.words, map.length, &map.layout, CLEARMAP_EUCLID2, CLEARMAP_OPEN

static uint64_t ask(int kind, clearmap_cell *points) {
    uint32_t side = map.layout.width, status;
    clearmap_cell from = drawn_cell(side);
    clearmap_found found = {from, {0, 0, 0}};
    if (kind == 0) {
        status = clearmap_bits_at(MAP, from.x, from.y, &found.near);
    } else if (kind == 1) {
        uint32_t x0 = least(from.x, side - 64), y0 = least(from.y, side - 64);
        status = clearmap_bits_rect(MAP, x0, y0, x0 + 64, y0 + 64, &found);
    } else if (kind < 4) {
        uint16_t x = least(from.x, side - 1000);
        clearmap_cell path[2] = {{x, from.y}, {(uint16_t)(x + 999), from.y}};
        status = kind == 2 ? clearmap_bits_path(MAP, path, 2, &found)
                           : clearmap_bits_clear_of(MAP, path, 2, 16, &found);
    } else {
        fill_walk(side, points);
        status = clearmap_bits_path(MAP, points, POINTS, &found);
    }
    if (status != CLEARMAP_DONE) exit(3);
    return sum_of(found);
}

static uint64_t now(void) {
    struct timespec time;
    clock_gettime(CLOCK_MONOTONIC, &time);
    return (uint64_t)time.tv_sec * 1000000000u + (uint64_t)time.tv_nsec;
}

static void time_kind(int kind, const char *name, uint64_t count) {
    static clearmap_cell points[POINTS];
    uint64_t best = UINT64_MAX, answers = 0;
    for (int round = 0; round < 5; ++round) {
        state = 20261123;
        answers = 0;
        uint64_t start = now();
        for (uint64_t i = 0; i < count; ++i) answers = answers * 31 + ask(kind, points);
        uint64_t took = (now() - start) / count;
        if (took < best) best = took;
    }
    printf("%s %llu %llu\n", name, (unsigned long long)best, (unsigned long long)answers);
}

/* Reads a raw PBM image without a comment. */
static void read_map(FILE *image) {
    uint32_t width, height;
    if (fscanf(image, "P4 %u %u", &width, &height) != 2 || fgetc(image) == EOF) exit(2);
    uint8_t *cells = malloc((size_t)width * height);
    for (uint32_t y = 0; y < height; ++y)
        for (uint32_t x = 0, byte = 0; x < width; ++x, byte <<= 1) {
            if (x % 8 == 0) byte = (uint32_t)fgetc(image);
            cells[(size_t)y * width + x] = (uint8_t)(byte >> 7 & 1);
        }
    clearmap_bytes layout = {width, height, width, 1, 1};
    size_t tiles = (size_t)(width + 63) / 64 * height;
    map.length = tiles + (height + 63) / 64;
    map.words = malloc(map.length * sizeof *map.words);
    if (clearmap_pack(cells, (size_t)width * height, &layout, map.words, map.length, &map.layout))
        exit(3);
    if (clearmap_mark(map.words, map.length, &map.layout, tiles)) exit(3);
    free(cells);
}

int main(int count, char **words) {
    FILE *image = count == 2 ? fopen(words[1], "rb") : NULL;
    if (!image) return 2;
    read_map(image);
    time_kind(0, "at", 2000);
    time_kind(1, "least_in", 200);
    time_kind(2, "along", 200);
    time_kind(3, "clear_of", 2000);
    time_kind(4, "walk", 50);
    return 0;
}
