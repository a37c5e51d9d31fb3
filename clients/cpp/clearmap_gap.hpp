// How far a convex polygon is from the nearest obstacle's square, for clearmap_footprint.hpp.
// Include that instead.
#ifndef CLEARMAP_GAP_HPP
#define CLEARMAP_GAP_HPP

#include "clearmap_polygon.hpp"

namespace clearmap::detail {

/// A place in steps, by floats: their errors are below a billionth of a cell.
struct Place {
    double x, y;
};

inline constexpr double nowhere = 1e30;  // steps: where there is no obstacle

inline double dot(Place a, Place b) noexcept { return a.x * b.x + a.y * b.y; }
inline Place from(Place a, Place b) noexcept { return {b.x - a.x, b.y - a.y}; }
inline double turn(Place a, Place b) noexcept { return a.x * b.y - a.y * b.x; }

/// A convex polygon that turns from x to y, and how far it is from cells, in steps.
class Gaps {
public:
    Gaps(const Place* corners, std::size_t count) noexcept : corners_(corners), count_(count) {
        for (std::size_t k = 0; k < count; ++k) {
            left = std::min(left, corners[k].x), right = std::max(right, corners[k].x);
            top = std::min(top, corners[k].y), below = std::max(below, corners[k].y);
        }
    }

    /// The distance from the square of a cell; 0 if they touch.
    double to_cell(int x, int y) const noexcept {
        const double side = steps, x0 = x * side, y0 = y * side;
        const Place square[] = {{x0, y0}, {x0 + side, y0}, {x0 + side, y0 + side}, {x0, y0 + side}};
        bool is_apart = right < x0 || left > x0 + side || below < y0 || top > y0 + side;
        double least = nowhere;
        each_side([&](Place a, Place b) {
            const Place along = from(a, b);
            const double square_length = dot(along, along);
            bool is_outside = true;
            for (Place corner : square) {
                const double off = turn(along, from(a, corner)), at = dot(along, from(a, corner));
                is_outside = is_outside && off < 0;
                if (0 < at && at < square_length)
                    least = std::min(least, std::abs(off) / std::sqrt(square_length));
            }
            is_apart = is_apart || is_outside;
            least = std::min(least, std::hypot(std::max({x0 - a.x, a.x - x0 - side, 0.0}),
                                               std::max({y0 - a.y, a.y - y0 - side, 0.0})));
        });
        return is_apart ? least : 0;
    }

    /// The distance from the border of a map, from inside; 0 if the polygon touches or leaves it.
    double to_border(Size size) const noexcept {
        const double side = steps;
        return std::max(
            0.0, std::min({left, top, size.width * side - right, size.height * side - below}));
    }

    /// How far the box around the polygon is from a row of cells.
    double to_row(int y) const noexcept {
        const double side = steps;
        return std::max({top - (y + 1) * side, y * side - below, 0.0});
    }

    /// A column that no other of a row is nearer than: it has a point of the polygon on the level
    /// of the row's first line, or on the nearest level that the polygon reaches.
    int column(int y) const noexcept {
        const double level = std::min(std::max(y * static_cast<double>(steps), top), below);
        double x = left;
        each_side([&](Place a, Place b) {
            if (std::min(a.y, b.y) <= level && level <= std::max(a.y, b.y))
                x = a.y == b.y ? a.x : a.x + (b.x - a.x) * (level - a.y) / (b.y - a.y);
        });
        return static_cast<int>(std::floor(x / steps));
    }

private:
    template <class Visit>
    void each_side(Visit visit) const {
        for (std::size_t k = 0; k < count_; ++k)
            visit(corners_[k], corners_[k + 1 == count_ ? 0 : k + 1]);
    }

    const Place* corners_;
    std::size_t count_;

public:
    double left = nowhere, right = -nowhere, top = nowhere, below = -nowhere;
};

/// The first obstacle of a row from a column on, leftwards by a step of -1; -1 if there is none.
inline int obstacle_beside(const Map& map, int x, int y, int step) noexcept {
    const std::uint64_t* row =
        map.words().data() + static_cast<std::size_t>(y) * map.bits().stride;
    while (0 <= x && x < map.size().width) {
        const std::uint64_t word = row[x / 64];
        if (word >> x % 64 & 1) return x;
        const bool is_blank = word == 0;
        x = !is_blank ? x + step : step > 0 ? (x / 64 + 1) * 64 : x / 64 * 64 - 1;
    }
    return -1;
}

/// The distance from the nearest obstacle's square, and with a wall from the border, in steps;
/// `nowhere` where there is none. In a row the distances grow on either side of the nearest column:
/// the obstacles next to it decide.
inline double nearest_gap(const Map& map, const Gaps& polygon) {
    const Size size = map.size();
    double least = map.edge() == Edge::wall ? polygon.to_border(size) : nowhere;
    auto on = [](double place, int side) {
        return static_cast<int>(std::clamp(std::floor(place / steps), 0.0, side - 1.0));
    };
    const Cell middle{on((polygon.left + polygon.right) / 2, size.width),
                      on((polygon.top + polygon.below) / 2, size.height)};
    const auto near = map.at(middle);
    if (!near) return least;
    auto offer = [&](int x, int y) { least = std::min(least, polygon.to_cell(x, y)); };
    const Cell c = near->obstacle;
    if (0 <= c.x && c.x < size.width && 0 <= c.y && c.y < size.height) offer(c.x, c.y);
    auto sweep = [&](int row, int step) {
        for (; 0 <= row && row < size.height && polygon.to_row(row) < least; row += step) {
            const int column = std::clamp(polygon.column(row), 0, size.width - 1);
            for (int way : {-1, 1}) {
                const int found = obstacle_beside(map, column, row, way);
                if (found >= 0) offer(found, row);
            }
        }
    };
    const int start = on(polygon.top, size.height);
    sweep(start, 1), sweep(start - 1, -1);
    return least;
}

}  // namespace clearmap::detail

#endif
