#!/bin/sh
# Tries which uses of the library's headers compile, and which are refused with a message: bytes of
# another size, or without the order of their rows, cells and distances that aren't integers, a
# metric in place of an edge, parts of a temporary, and statuses and answers that nobody looks at.
# All by each compiler that is installed, with warnings as errors.
set -u
cd "$(dirname "$0")/../.." || exit 1
scratch=$(mktemp -d)
trap 'rm -rf "$scratch"' EXIT
trap 'exit 1' INT TERM
failed=0 tried=0

# Each statement stands in a function of these arguments, of which some aren't used.
c_program() { # c_program STATEMENT
    echo '#include "clearmap.h"'
    echo 'uint32_t use(const uint64_t *words, const clearmap_bits *map, clearmap_near *near);'
    echo 'uint32_t use(const uint64_t *words, const clearmap_bits *map, clearmap_near *near) {'
    echo "(void)words, (void)map, (void)near; $1; return 0; }"
}
cpp_program() { # cpp_program STATEMENT
    echo '#include "clearmap_footprint.hpp"'
    echo 'using namespace clearmap;'
    echo 'void use(Map& map, const Path& path, const int* ints, const float* floats,'
    echo '         const std::byte* bytes, const void* nothing, const Footprint& robot,'
    echo '         const Frame& frame);'
    echo 'void use(Map& map, const Path& path, const int* ints, const float* floats,'
    echo '         const std::byte* bytes, const void* nothing, const Footprint& robot,'
    echo '         const Frame& frame) {'
    echo "(void)map, (void)path, (void)ints, (void)floats, (void)bytes, (void)nothing;"
    echo "(void)robot, (void)frame; $1; }"
}

compiles() { # compiles LANGUAGE STATEMENT
    case $1 in
        c) c_program "$2" | LC_ALL=C "$cc" -std=c11 -Wall -Wextra -Wconversion -Werror \
            -Iclients/c -c -o /dev/null -x c - ;;
        cpp) cpp_program "$2" | LC_ALL=C "$cxx" -std=c++17 -Wall -Wextra -Wconversion -Werror \
            -fsyntax-only -Iclients/c -Iclients/cpp -x c++ - ;;
    esac 2> "$scratch/log"
}
taken() { # taken LANGUAGE STATEMENT
    tried=$((tried + 1))
    compiles "$1" "$2" || { failed=1; echo "refused: $2"; head -n 20 "$scratch/log"; }
}
refused() { # refused LANGUAGE WORDS STATEMENT
    tried=$((tried + 1))
    if compiles "$1" "$3"; then
        failed=1
        echo "this compiles: $3"
    elif ! grep -qE "$2" "$scratch/log"; then
        failed=1
        echo "refused for another reason: $3"
        head -n 20 "$scratch/log"
    fi
}

check() { # check: all uses, by the compilers $cc and $cxx
    at='clearmap_bits_at(words, 1, map, CLEARMAP_EUCLID2, CLEARMAP_OPEN, 0, 0, near)'
    taken c "return $at"
    taken c "if ($at != CLEARMAP_DONE) return 1"
    refused c 'unused-result' "$at"
    taken c 'const uint32_t metric = 1, edge = 1;
        return clearmap_bits_at(words, 1, map, metric, edge, 0, 0, near)'
    taken c 'return clearmap_bits_at(words, 1, map, 2, 1, 0, 0, near)'
    taken c 'uint32_t (*call)(const uint64_t *, size_t, const clearmap_bits *, uint32_t, uint32_t,
        uint32_t, uint32_t, clearmap_near *) = clearmap_bits_at; return call != NULL'
    for swapped in 'CLEARMAP_OPEN, CLEARMAP_WALL' 'CLEARMAP_OPEN, CLEARMAP_CITY' \
        '1, CLEARMAP_CITY'; do
        refused c 'enum-conversion' "return clearmap_bits_at(words, 1, map, $swapped, 0, 0, near)"
    done
    taken c 'return clearmap_clear_distance(0.2, 0.05)'

    taken cpp 'Map::of_bytes(bytes, 12, 4, {4, 3}, {1, 1}, Rows::downwards)'
    taken cpp 'Map::of_bytes(std::vector<signed char>(12), {4, 3}, {1, 1}, Rows::upwards, Edge::wall)'
    taken cpp 'Map::of_costmap(bytes, 12, frame, {1, 1}, Edge::wall)'
    taken cpp 'Map::of_costmap(std::vector<signed char>(12), frame, {65, 255})'
    for cells in ints floats nothing; do
        refused cpp 'its elements have the size 1' \
            "Map::of_bytes($cells, 12, 4, {4, 3}, {1, 1}, Rows::upwards)"
    done
    refused cpp 'its elements have the size 1' 'Map::of_costmap(ints, 12, frame, {1, 1})'
    refused cpp 'its elements have the size 1' \
        'Map::of_bytes(std::vector<int>(12), {4, 3}, {1, 1}, Rows::upwards)'
    refused cpp 'its elements have the size 1' 'Map::of_costmap(std::vector<int>(12), frame, {1, 1})'
    # No order of the rows is right for every caller, so that none is assumed.
    refused cpp 'no match' 'Map::of_bytes(bytes, 12, 4, {4, 3}, {1, 1})'
    for rest in '' ', Edge::wall, Rows::upwards'; do
        refused cpp 'no match' "Map::of_bytes(std::vector<char>(12), {4, 3}, {1, 1}$rest)"
    done
    # What a temporary lends would end with it.
    taken cpp 'const Field field(map); (void)field.map().words()'
    refused cpp 'deleted' '(void)Map({4, 3}).words()'
    refused cpp 'deleted' '(void)Field(map).map()'

    taken cpp 'if (map.is_clear(9, path) && map.is_clear(std::uint64_t{9}, path)) map.clear(0, 0, 1, 1)'
    taken cpp 'if (auto near = map.clear_of(9, path)) map.paint(0, 0, near->cell.x, 1)'
    taken cpp 'map.paint(std::size_t{0}, 0L, std::uint16_t{1}, 1u)'
    taken cpp 'if (map.at({std::size_t{0}, 1L})) map.clear(0, 0, 1, 1)'
    refused cpp 'deleted' 'map.paint(0, 0, 1, 1.5)'
    refused cpp 'deleted' 'if (map.at({0.5, 1})) map.clear(0, 0, 1, 1)'
    refused cpp 'deleted' 'Map other({3.5, 4})'
    refused cpp 'deleted' 'if (map.is_clear(2.5, path)) map.clear(0, 0, 1, 1)'
    refused cpp 'deleted' 'if (map.clear_of(2.5f, path)) map.clear(0, 0, 1, 1)'
    taken cpp 'if (map.clear_many(path, 9L)[0]) map.clear(0, 0, 1, map.at_many(path)[0]->distance)'
    refused cpp 'deleted' 'if (map.clear_many(path, 2.5)[0]) map.clear(0, 0, 1, 1)'
    refused cpp 'unused|ignoring' 'map.clear_many(path, 9)'
    refused cpp 'unused|ignoring' 'map.is_clear(9, path)'
    refused cpp 'unused|ignoring' 'map.clear_of(9, path)'
    refused cpp 'unused|ignoring' 'map.clear_of(std::size_t{9}, path)'
    refused cpp 'unused|ignoring' 'robot.hits(map, 1, 1, 0)'
    refused cpp 'unused|ignoring' 'robot.is_clear(map, 1, 1, 0)'
    refused cpp 'unused|ignoring' 'double cells; map.is_valid(1, 1, cells)'
    refused cpp 'unused|ignoring' "const std::uint64_t* words{}; const clearmap_bits bits{}; \
        clearmap_near near{}; clearmap_bits_at(words, 1, &bits, 0, 0, 0, 0, &near)"
}

for pair in gcc:g++ clang:clang++; do
    cc=${pair%:*} cxx=${pair#*:}
    if command -v "$cc" > /dev/null && command -v "$cxx" > /dev/null; then
        check
    else
        echo "uses by $cc and $cxx left out: there is none of the two"
    fi
done
echo "uses of the headers: $tried tried"
exit "$failed"
