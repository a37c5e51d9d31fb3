// The cells that a convex polygon covers, row by row, for the look at each cell of footprints.cpp:
// by the two sides of its hull, with floats where these are certain.
#ifndef COVERED_ROWS_HPP
#define COVERED_ROWS_HPP

#include "clearmap_polygon.hpp"

namespace clearmap::detail {

/// The order of corners along a side of a hull.
inline bool is_before(Corner a, Corner b) noexcept { return a.y != b.y ? a.y < b.y : a.x < b.x; }

/// The convex hull of some corners, without those on a side: its two sides, each from the corner of
/// the least row to that of the greatest.
struct Hull {
    Corner left[most_corners], right[most_corners];
    std::size_t lefts = 0, rights = 0;

    /// May put the corners in another order. It is faster where they turn from x to y.
    Hull(Corner* corners, std::size_t count) noexcept {
        if (takes_ring(corners, count)) return;
        lefts = rights = 0;
        std::sort(corners, corners + count, is_before);
        for (const Corner* corner = corners; corner != corners + count; ++corner) {
            add(left, lefts, *corner, -1);
            add(right, rights, *corner, 1);
        }
    }

private:
    static void add(Corner* side, std::size_t& count, Corner corner, int turn) noexcept {
        while (count > 1 && turn * cross(side[count - 2], side[count - 1], corner) <= 0) --count;
        if (count == 0 || !(side[count - 1] == corner)) side[count++] = corner;
    }

    /// Takes corners as they are, if each turns from x to y and rows grow once and shrink once.
    bool takes_ring(const Corner* corners, std::size_t count) noexcept {
        std::size_t first = 0, last = 0;
        for (std::size_t k = 1; k < count; ++k) {
            if (is_before(corners[k], corners[first])) first = k;
            if (is_before(corners[last], corners[k])) last = k;
        }
        if (first == last) return false;
        auto next = [&](std::size_t k) { return k + 1 == count ? 0 : k + 1; };
        auto turns = [&](std::size_t k) {
            const std::size_t after = next(k);
            return cross(corners[k], corners[after], corners[next(after)]) > 0;
        };
        for (std::size_t k = first; k != last; k = next(k)) {
            if (!(is_before(corners[k], corners[next(k)]) && turns(k))) return false;
            right[rights++] = corners[k];
        }
        right[rights++] = corners[last];
        lefts = count - rights + 2;
        std::size_t at = lefts;
        for (std::size_t k = last; k != first; k = next(k)) {
            if (!(is_before(corners[next(k)], corners[k]) && turns(k))) return false;
            left[--at] = corners[k];
        }
        left[0] = corners[first];
        return true;
    }
};

/// One side of a hull, followed by rows: `sign` is 1 for the left side, and -1 for the right one,
/// whose columns are counted backwards.
template <int sign>
class Walk {
public:
    explicit Walk(const Corner* side) noexcept
        : at_(side), before_(floored(sign * side->x, steps)) {
        begin();
    }

    /// The least column from the last call's y, or the lowest corner's, to this one, in steps.
    std::int64_t least_to(std::int64_t y) noexcept {
        std::int64_t found = before_;
        for (; at_[1].y < y; begin()) {
            ++at_;
            found = std::min(found, floored(sign * at_->x, steps));
        }
        before_ = column(y);
        return std::min(found, before_);
    }

private:
    void begin() noexcept {
        const auto dx = static_cast<double>(at_[1].x - at_->x);
        slope_ = sign * dx / static_cast<double>(at_[1].y - at_->y);
    }

    /// The column at y, by floats if these are certain.
    std::int64_t column(std::int64_t y) const noexcept {
        const Corner a = at_[0], b = at_[1];
        if (y == b.y) return floored(sign * b.x, steps);
        const double about =
            (static_cast<double>(sign * a.x) + slope_ * static_cast<double>(y - a.y)) / steps;
        auto found = static_cast<std::int64_t>(about + largest_column) - largest_column;
        const double over = about - static_cast<double>(found);
        if (0.001 < over && over < 0.999) return found;
        const std::int64_t dy = b.y - a.y;
        return floored(sign * (a.x * dy + (b.x - a.x) * (y - a.y)), dy * steps);
    }

    static constexpr std::int64_t largest_column = 1 << 20;

    const Corner* at_;
    double slope_ = 0;
    std::int64_t before_;
};

/// Calls visit(row, first, end) for the cells whose squares meet the inside of a hull, in rows
/// `top` to `bottom` - 1: columns first to end - 1. It stops when a call returns true, and returns
/// whether one did.
template <class Visit>
bool any_row(const Hull& hull, int top, int bottom, Visit visit) {
    const std::int64_t begin = hull.left[0].y, end = hull.left[hull.lefts - 1].y;
    const std::int64_t first = std::max<std::int64_t>(floored(begin, steps), top);
    const std::int64_t last = std::min<std::int64_t>(-floored(-end, steps), bottom);
    if (first >= last) return false;
    Walk<1> left(hull.left);
    Walk<-1> right(hull.right);
    if (begin < first * steps) left.least_to(first * steps), right.least_to(first * steps);
    for (std::int64_t row = first; row < last; ++row) {
        const std::int64_t y = std::min((row + 1) * steps, end);
        const std::int64_t column = left.least_to(y), columns_end = -right.least_to(y);
        if (visit(static_cast<int>(row), column, columns_end)) return true;
    }
    return false;
}

}  // namespace clearmap::detail

#endif
