// Convex polygons in integers, for clearmap_footprint.hpp and clearmap_shapes.hpp: their corners,
// and which points form one. Include these instead.
#ifndef CLEARMAP_POLYGON_HPP
#define CLEARMAP_POLYGON_HPP

#include "clearmap_map.hpp"

namespace clearmap::detail {

inline constexpr std::int64_t steps = 65536;      // of a cell: corners lie on whole steps
inline constexpr std::int64_t unit = 1 << 30;     // the length of a direction
inline constexpr std::size_t most_corners = 128;  // of a footprint
inline constexpr double largest_reach = 4096;     // cells
inline constexpr std::int64_t thinnest = steps / 1024;
inline constexpr std::int64_t loose = 2;  // steps that a point of a straight side may be inside

struct Corner {
    std::int64_t x, y;
    friend bool operator==(Corner a, Corner b) { return a.x == b.x && a.y == b.y; }
};

/// The nearest integer; the greater of two.
inline std::int64_t rounded(double number) noexcept {
    return static_cast<std::int64_t>(std::floor(number + 0.5));
}

/// A quotient, rounded down; the divisor is positive.
inline std::int64_t floored(std::int64_t number, std::int64_t divisor) noexcept {
    const std::int64_t found = number / divisor;
    return found - (number % divisor < 0);
}

/// Twice the area of a triangle: positive if it turns from x to y.
template <class AnyCorner>
std::int64_t cross(const AnyCorner& a, const AnyCorner& b, const AnyCorner& c) noexcept {
    const std::int64_t x = a.x, y = a.y;
    return (b.x - x) * (c.y - y) - (b.y - y) * (c.x - x);
}

inline double length(Corner a, Corner b) noexcept {
    return std::hypot(static_cast<double>(b.x - a.x), static_cast<double>(b.y - a.y));
}

/// Puts the convex hull of 3 to 128 corners in their place, turning from x to y, without those on a
/// side. Returns how many corners it has: under 3 if all lie in one line.
template <class AnyCorner>
std::size_t to_hull(AnyCorner* corners, std::size_t count) noexcept {
    std::sort(corners, corners + count,
              [](AnyCorner a, AnyCorner b) { return a.y != b.y ? a.y < b.y : a.x < b.x; });
    AnyCorner hull[2 * most_corners];
    std::size_t kept = 0;
    auto add = [&](AnyCorner corner, std::size_t first) {
        while (kept > first && cross(hull[kept - 2], hull[kept - 1], corner) <= 0) --kept;
        hull[kept++] = corner;
    };
    for (std::size_t k = 0; k < count; ++k) add(corners[k], 1);
    const std::size_t last = kept;
    for (std::size_t k = count - 1; k-- > 0;) add(corners[k], last);
    std::copy(hull, hull + --kept, corners);
    return kept;
}

// ---- points as a polygon

[[noreturn]] inline void bad_footprint(const std::string& words) {
    throw std::invalid_argument(words);
}

/// Whether a point lies on the side from a to b.
inline bool is_on_side(Corner a, Corner b, Corner corner) noexcept {
    const std::int64_t dx = b.x - a.x, dy = b.y - a.y;
    const std::int64_t along = (corner.x - a.x) * dx + (corner.y - a.y) * dy;
    return 0 <= along && along <= dx * dx + dy * dy &&
           static_cast<double>(std::abs(cross(a, b, corner))) <= loose * length(a, b);
}

/// Whether points go around their hull once, and none is inside it by more than rounding can cause.
inline bool goes_round(const std::vector<Corner>& points, const std::vector<Corner>& outline) {
    const auto start = static_cast<std::size_t>(
        std::find(points.begin(), points.end(), outline[0]) - points.begin());
    std::size_t at = 0;
    for (std::size_t k = 1; k <= points.size(); ++k) {
        const Corner corner = points[(start + k) % points.size()];
        const Corner a = outline[at % outline.size()], b = outline[(at + 1) % outline.size()];
        if (corner == b)
            ++at;
        else if (!is_on_side(a, b, corner))
            return false;
    }
    return at == outline.size();
}

/// Calls visit(a, b) for each side of a polygon.
template <class Visit>
void each_side(const std::vector<Corner>& ring, Visit visit) {
    for (std::size_t k = 0; k < ring.size(); ++k) visit(ring[k], ring[(k + 1) % ring.size()]);
}

/// Points in steps as the corners of a convex polygon; throws std::invalid_argument for others.
inline std::vector<Corner> outline_of(std::vector<Corner> points) {
    std::vector<Corner> outline = points;
    outline.resize(to_hull(outline.data(), outline.size()));
    if (outline.size() < 3) bad_footprint("the points of a footprint lie in one line");
    points.erase(std::unique(points.begin(), points.end()), points.end());
    while (points.front() == points.back()) points.pop_back();
    const std::vector<Corner> turned(points.rbegin(), points.rend());
    if (!goes_round(points, outline) && !goes_round(turned, outline))
        bad_footprint("a footprint is convex, and these points, in their order, are not");
    each_side(outline, [&](Corner a, Corner b) {
        std::int64_t most = 0;
        for (Corner corner : outline) most = std::max(most, cross(a, b, corner));
        if (static_cast<double>(most) < thinnest * length(a, b))
            bad_footprint("a footprint is 1/1024 of a cell wide at least");
    });
    return outline;
}

}  // namespace clearmap::detail

#endif
