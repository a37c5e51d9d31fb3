// What the tests of a field draw: random maps and boxes, and whether a field is that of a map.
#ifndef CLEARMAP_DRAWING_HPP
#define CLEARMAP_DRAWING_HPP

#include "clearmap_map.hpp"

#include <random>

using namespace clearmap;
using detail::Box;

inline std::mt19937 random_numbers(11);
inline int below(int count) {
    return std::uniform_int_distribution<int>(0, count - 1)(random_numbers);
}
inline Metric random_metric() { return static_cast<Metric>(below(3)); }

inline Box random_box(Size size, int most) {
    int x = below(size.width), y = below(size.height);
    return {x, y, x + 1 + below(std::min(most, size.width - x)),
            y + 1 + below(std::min(most, size.height - y))};
}

/// Few obstacles or many, or none.
inline Map random_map(int widest, int highest) {
    Map map({1 + below(widest), 1 + below(highest)}, below(2) ? Edge::wall : Edge::open);
    const Size size = map.size();
    for (int k = below(2) ? below(8) : below(size.width * size.height); k > 0; --k) {
        int x = below(size.width), y = below(size.height);
        map.paint(x, y, x + 1, y + 1);
    }
    return map;
}

/// Paints or clears a box, of a map or a field.
template <class Drawn>
inline std::uint32_t draw(Drawn& drawn, const Box& b, bool obstacles) {
    return obstacles ? drawn.paint(b.x0, b.y0, b.x1, b.y1) : drawn.clear(b.x0, b.y0, b.x1, b.y1);
}

/// Whether a field is that of a map, cell by cell.
inline bool shows(const Field& field, const Map& map) {
    const Field anew(map, field.metric());
    if (field.map() != map || !(field.size() == map.size())) return false;
    for (int y = 0; y < map.size().height; ++y)
        for (int x = 0; x < map.size().width; ++x)
            if (field.distance({x, y}) != anew.distance({x, y}) ||
                !(field.obstacle({x, y}) == anew.obstacle({x, y})))
                return false;
    return true;
}

#endif
