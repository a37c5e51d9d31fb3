// A model of the map that the tests of clearmap.hpp query: 64 by 48 cells with one obstacle, and
// questions drawn at random, each with its answer.
#ifndef CLEARMAP_MODEL_HPP
#define CLEARMAP_MODEL_HPP

#include "testing.hpp"

#include <random>

inline const Size size = {64, 48};
inline const Cell obstacle = {5, 7};

inline std::uint32_t distance(Cell c, Metric m) {
    int dx = std::abs(c.x - obstacle.x), dy = std::abs(c.y - obstacle.y);
    int found = m == Metric::euclid2 ? dx * dx + dy * dy
                : m == Metric::city  ? dx + dy
                                     : std::max(dx, dy);
    return static_cast<std::uint32_t>(found);
}

inline std::string dumped() {
    std::string text = "P1\n64 48\n";
    for (int y = 0; y < size.height; ++y) {
        for (int x = 0; x < size.width; ++x) text += Cell{x, y} == obstacle ? '1' : '0';
        text += '\n';
    }
    return text;
}

/// The first of these cells that has the least distance.
inline Cell tightest(const std::vector<Cell>& cells, Metric m) {
    return *std::min_element(cells.begin(), cells.end(),
                             [m](Cell a, Cell b) { return distance(a, m) < distance(b, m); });
}

inline bool is(const std::optional<Tightest>& found, Cell wanted, Metric m) {
    return found && found->cell == wanted && found->distance == distance(wanted, m) &&
           found->obstacle == obstacle;
}

/// Random queries of a pin of the map as it was served first, each with the model's answer.
class Asker {
public:
    explicit Asker(unsigned seed) : random_(seed) {}

    void ask(Pinned& map) {
        Metric m = static_cast<Metric>(below(3));
        Cell a{below(size.width), below(size.height)},
            b{a.x + below(size.width - a.x), a.y + below(size.height - a.y)};
        switch (below(8)) {
            case 0: rect(map, a, b, m); break;
            case 1: path(map, a, b, m); break;
            case 2: many(map); break;
            case 3: CHECK(below(10) != 0 || map.dump() == dumped()); break;
            case 4: CHECK(map.version() == 0 && (below(4) != 0 || map.renew() == 0)); break;
            case 5:
                CHECK(refused(OutOfRange, "OutOfRange", {}, [&] {
                    map.at({size.width + a.x, a.y}, m);
                }));
                break;
            default: at(map, a, m);
        }
    }

    static void at(Pinned& map, Cell c, Metric m) {
        auto near = map.at(c, m);
        CHECK(near && near->distance == distance(c, m) && near->obstacle == obstacle);
    }

private:
    int below(int count) { return std::uniform_int_distribution<int>(0, count - 1)(random_); }

    void rect(Pinned& map, Cell a, Cell b, Metric m) {
        std::vector<Cell> cells;
        for (int y = a.y; y <= b.y; ++y)
            for (int x = a.x; x <= b.x; ++x) cells.push_back({x, y});
        CHECK(is(map.rect(a.x, a.y, b.x + 1, b.y + 1, m), tightest(cells, m), m));
    }

    void path(Pinned& map, Cell a, Cell b, Metric m) {
        std::vector<Cell> cells;
        for (int x = a.x; x <= b.x; ++x) cells.push_back({x, a.y});
        for (int y = a.y; y <= b.y; ++y) cells.push_back({b.x, y});
        Path corners = {a, {b.x, a.y}, b};
        Cell first = tightest(cells, m);
        CHECK(is(map.path(corners, m), first, m) && !map.clear_of(distance(first, m), corners, m));
    }

    void many(Pinned& map) {
        std::vector<Cell> cells(static_cast<std::size_t>(below(150)));
        for (Cell& cell : cells) cell = {below(size.width), below(size.height)};
        auto found = map.clearances(cells);
        CHECK(found.size() == cells.size());
        for (std::size_t i = 0; i < cells.size(); ++i)
            CHECK(found[i] == std::sqrt(static_cast<double>(distance(cells[i], Metric::euclid2))));
    }

    std::mt19937 random_;
};

#endif
