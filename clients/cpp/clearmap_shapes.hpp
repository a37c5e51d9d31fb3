// Shapes that become obstacles, or free, over clearmap_map.hpp: lists of cells, discs and convex
// polygons, on a Map or a Field. Not proved; test_many.cpp compares them with a search of all
// cells.
//
//     clearmap::paint_disc(map, 31.5, 20.5, 4);        // cells: the centre, and the radius
//     clearmap::clear_polygon(field, {{3, 4}, {9, 4}, {3, 8}});
//     clearmap::paint_cells(map, {{3, 4}, {5, 6}});
//
// A place is in cells: cell (3, 4) is the square from (3, 4) to (4, 5). Each call returns how many
// cells changed; one that throws has changed nothing.
#ifndef CLEARMAP_SHAPES_HPP
#define CLEARMAP_SHAPES_HPP

#include "clearmap_polygon.hpp"

namespace clearmap {

namespace detail {

/// Columns x0 to x1 - 1 of a row.
struct Span {
    int y, x0, x1;
};
using Spans = std::vector<Span>;

inline constexpr double farthest_place = 16384;  // cells off the map's first corner

/// A place in steps. Throws for one too far off, or not finite.
inline std::int64_t in_steps(double cells) {
    if (!is_finite(cells) || std::abs(cells) > farthest_place)
        throw std::invalid_argument("a shape is at most 16384 cells off the map's first corner");
    return rounded(cells * steps);
}

/// Cells one by one, all of which are in the map.
inline Spans spans_of(Size size, const std::vector<Cell>& cells) {
    Spans spans;
    spans.reserve(cells.size());
    for (Cell c : cells) {
        if (!(0 <= c.x && c.x < size.width && 0 <= c.y && c.y < size.height))
            throw std::out_of_range(named(spans.size(), c) +
                                    clearmap_status_text(CLEARMAP_OUTSIDE));
        spans.push_back({c.y, c.x, c.x + 1});
    }
    return spans;
}

/// How far a cell's columns, or rows, are from a place, in steps.
inline std::int64_t steps_to(int cell, std::int64_t place) noexcept {
    const std::int64_t begin = cell * steps;
    return std::max({begin - place, place - begin - steps, std::int64_t{0}});
}

/// The cells whose squares meet the inside of a disc.
inline Spans spans_of(Size size, double x, double y, double radius) {
    const std::int64_t across = in_steps(x), down = in_steps(y), reach = in_steps(radius);
    if (!is_positive(radius)) throw std::invalid_argument("a disc has a radius above 0");
    auto begin = [&](std::int64_t place, int side) {
        return static_cast<int>(std::clamp<std::int64_t>(floored(place - reach, steps), 0, side));
    };
    auto end = [&](std::int64_t place, int side) {
        const std::int64_t after = -floored(-(place + reach), steps);
        return static_cast<int>(std::clamp<std::int64_t>(after, 0, side));
    };
    Spans spans;
    for (int row = begin(down, size.height); row < end(down, size.height); ++row) {
        const std::int64_t rows = steps_to(row, down), left = reach * reach - rows * rows;
        auto meets = [&](int column) {
            const std::int64_t columns = steps_to(column, across);
            return columns * columns < left;
        };
        int x0 = begin(across, size.width), x1 = end(across, size.width);
        while (x0 < x1 && !meets(x0)) ++x0;
        while (x0 < x1 && !meets(x1 - 1)) --x1;
        if (x0 < x1) spans.push_back({row, x0, x1});
    }
    return spans;
}

/// The cells of a row whose squares meet the inside of a convex polygon: between the ends that its
/// sides have in the row.
inline Span span_of(Size size, const std::vector<Corner>& outline, int row) {
    const std::int64_t top = row * steps, none = size.width;
    std::int64_t x0 = none, x1 = 0;
    each_side(outline, [&](Corner a, Corner b) {
        if (b.y < a.y) std::swap(a, b);
        const std::int64_t dy = b.y - a.y;
        const std::int64_t upper = std::max(top, a.y), lower = std::min(top + steps, b.y);
        if (upper >= lower) return;
        for (std::int64_t y : {upper, lower}) {
            const std::int64_t across = a.x * dy + (b.x - a.x) * (y - a.y);
            x0 = std::min(x0, floored(across, dy * steps));
            x1 = std::max(x1, -floored(-across, dy * steps));
        }
    });
    return {row, static_cast<int>(std::max<std::int64_t>(x0, 0)),
            static_cast<int>(std::min(x1, none))};
}

/// The cells whose squares meet the inside of a convex polygon.
inline Spans spans_of(Size size, const std::vector<Point>& points) {
    if (points.size() < 3 || points.size() > most_corners)
        bad_footprint("a polygon has 3 to 128 points");
    std::vector<Corner> corners;
    Point sum{0, 0};
    for (Point p : points) {
        corners.push_back({in_steps(p.x), in_steps(p.y)});
        sum.x += p.x, sum.y += p.y;
    }
    const auto count = static_cast<double>(points.size());
    for (Point p : points)
        if (std::hypot(p.x - std::floor(sum.x / count), p.y - std::floor(sum.y / count)) >
            largest_reach)
            bad_footprint("a polygon reaches 4096 cells from its middle at most");
    const std::vector<Corner> outline = outline_of(corners);
    const auto [highest, lowest] = std::minmax_element(
        outline.begin(), outline.end(), [](Corner a, Corner b) { return a.y < b.y; });
    const auto in_map = [&](std::int64_t row) {
        return static_cast<int>(std::clamp<std::int64_t>(row, 0, size.height));
    };
    const int bottom = in_map(-floored(-lowest->y, steps));
    Spans spans;
    for (int row = in_map(floored(highest->y, steps)); row < bottom; ++row) {
        const Span span = span_of(size, outline, row);
        if (span.x0 < span.x1) spans.push_back(span);
    }
    return spans;
}

inline std::uint32_t draw(Map& map, const Spans& spans, bool obstacles) {
    std::uint32_t changed = 0;
    for (const Span& s : spans)
        changed +=
            obstacles ? map.paint(s.x0, s.y, s.x1, s.y + 1) : map.clear(s.x0, s.y, s.x1, s.y + 1);
    return changed;
}

inline std::uint32_t draw(Field& field, const Spans& spans, bool obstacles) {
    Map map = field.map();
    const std::uint32_t changed = draw(map, spans, obstacles);
    if (changed > 0) field.update(map);
    return changed;
}

inline Size size_of(const Map& map) {
    if (map.size().width == 0) check(CLEARMAP_SIZE);
    return map.size();
}
inline Size size_of(const Field& field) {
    return size_of(field.map());
}

}  // namespace detail

/// Makes cells obstacles. Throws std::out_of_range for the first that isn't in the map, with its
/// index.
template <class Area>
std::uint32_t paint_cells(Area& area, const std::vector<Cell>& cells) {
    return detail::draw(area, detail::spans_of(detail::size_of(area), cells), true);
}
/// Makes them free.
template <class Area>
std::uint32_t clear_cells(Area& area, const std::vector<Cell>& cells) {
    return detail::draw(area, detail::spans_of(detail::size_of(area), cells), false);
}

/// Makes each cell of the map an obstacle whose square meets the inside of the disc around (x, y):
/// its centre and its radius are rounded to 1/65536 of a cell, and touching isn't meeting. Throws
/// std::invalid_argument for a radius that isn't above 0, and for a disc over 16384 cells off.
template <class Area>
std::uint32_t paint_disc(Area& area, double x, double y, double radius) {
    return detail::draw(area, detail::spans_of(detail::size_of(area), x, y, radius), true);
}
/// Makes them free.
template <class Area>
std::uint32_t clear_disc(Area& area, double x, double y, double radius) {
    return detail::draw(area, detail::spans_of(detail::size_of(area), x, y, radius), false);
}

/// Makes each cell of the map an obstacle whose square meets the inside of the convex polygon with
/// these corners, rounded to 1/65536 of a cell: touching isn't meeting. Throws
/// std::invalid_argument for points that no Footprint around their middle can have, and for one
/// over 16384 cells off.
template <class Area>
std::uint32_t paint_polygon(Area& area, const std::vector<Point>& points) {
    return detail::draw(area, detail::spans_of(detail::size_of(area), points), true);
}
/// Makes them free.
template <class Area>
std::uint32_t clear_polygon(Area& area, const std::vector<Point>& points) {
    return detail::draw(area, detail::spans_of(detail::size_of(area), points), false);
}

}  // namespace clearmap

#endif
