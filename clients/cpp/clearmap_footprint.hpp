// Footprints, over clearmap_map.hpp: whether a robot of any convex shape is on an obstacle, pose by
// pose, and how far it is from one. The library's call for a polygon is proved. How a pose becomes
// corners is not; test_footprint.cpp compares it with a search of all cells, and with a model in
// Python.
//
//     clearmap::Footprint robot({{-0.3, -0.2}, {0.5, 0}, {-0.3, 0.2}}, 0.05);  // metres, of 0.05
//     if (robot.hits(map, 31.5, 20.5, 0.7)) ..          // a pose in cells of the map
//     if (robot.is_clear(map, frame, 1.5, 1, 0.7)) ..   // a pose in metres
//     double free = robot.clearance(map, 31.5, 20.5, 0.7);
//
// Threads. Any threads may use one footprint, on one map or field too, while none changes that. A
// query allocates no memory.
#ifndef CLEARMAP_FOOTPRINT_HPP
#define CLEARMAP_FOOTPRINT_HPP

#include "clearmap_gap.hpp"

namespace clearmap {

/// A robot's outline: a convex polygon of 3 to 128 points around its centre, in order. They reach
/// at most 4096 cells from the centre (0, 0), which may be outside the polygon.
///
/// A pose is the position of the centre, and how far the points are turned, in radians from x
/// towards y. In cells of the map cell (3, 4) is the square from (3, 4) to (4, 5), and (3.5, 4.5)
/// its centre. Row 0 of a Frame is at the top: by a frame x, y and the points are in metres with y
/// upwards, and the map's rows the other way round.
///
/// A pose hits an obstacle if the inside of the polygon meets an obstacle's square: touching it
/// from outside isn't a hit. Around the map all cells are free with Edge::open, and obstacles
/// with Edge::wall. So each pose has an answer, on the map or off it.
///
/// The answer is exact for the polygon whose corners lie on whole steps of 1/65536 of a cell: the
/// points, the pose and the turned corners are rounded to these, and the cosine and the sine to
/// 2^-30. No corner moves by more than 1/16384 of a cell, and none if the turn is a multiple of a
/// right angle.
class Footprint {
public:
    /// Points in cells. Throws std::invalid_argument for points that don't form a convex polygon.
    explicit Footprint(const std::vector<Point>& points) : Footprint(points, 1, std::nullopt) {}

    /// Points in metres, on maps with this many metres per cell.
    Footprint(const std::vector<Point>& points, double resolution)
        : Footprint(points, resolution, resolution) {}

    /// Whether the robot is on an obstacle at a pose in cells of a map, or of a field's map. Throws
    /// std::invalid_argument if a number isn't finite, and for a map that was moved from.
    [[nodiscard]] bool hits(const Map& map, double x, double y, double theta) const {
        return asked(map, {x, y, theta, 1});
    }
    [[nodiscard]] bool hits(const Field& field, double x, double y, double theta) const {
        return asked(field, {x, y, theta, 1});
    }

    /// At a pose in metres, y upwards and turned from x towards it, on a map or a field. Throws
    /// std::invalid_argument if the frame's size differs from the map's, or its resolution from the
    /// points', and for a map whose row 0 is the lowest.
    template <class Area>
    [[nodiscard]] bool hits(const Area& area, const Frame& frame, double x, double y,
                            double theta) const {
        return asked(area, in_cells(map_of(area), frame, x, y, theta));
    }

    /// Whether the robot is on no obstacle.
    template <class Area, class... Pose>
    [[nodiscard]] bool is_clear(const Area& area, const Pose&... pose) const {
        return !hits(area, pose...);
    }

    /// How far the robot is from the nearest obstacle's square, or with Edge::wall from the map's
    /// border, in the unit of its points: cells, or metres. 0 if it hits or touches one; infinite
    /// where there is none. It is never more than that distance, and less by at most 1/8192 of a
    /// cell. Throws as hits does, and std::invalid_argument for a pose over 1048576 cells off.
    double clearance(const Map& map, double x, double y, double theta) const {
        return gap(map, {x, y, theta, 1});
    }
    /// At a pose in metres.
    double clearance(const Map& map, const Frame& frame, double x, double y, double theta) const {
        return gap(map, in_cells(map, frame, x, y, theta));
    }

private:
    using Corner = detail::Corner;

    /// Centre and turn; `down` is -1 if the y of the points runs against the rows.
    struct Pose {
        double x, y, theta;
        int down;
    };

    static const Map& map_of(const Map& map) noexcept { return map; }
    static const Map& map_of(const Field& field) noexcept { return field.map(); }

    static void check_pose(const Pose& pose) {
        if (!detail::is_finite(pose.x) || !detail::is_finite(pose.y) ||
            !detail::is_finite(pose.theta))
            throw std::invalid_argument("a pose isn't finite");
    }

    /// A pose in metres on a map.
    Pose in_cells(const Map& map, const Frame& frame, double x, double y, double theta) const {
        detail::check_frame(frame, map);
        check_pose({x, y, theta, -1});
        if (resolution_ && *resolution_ != frame.resolution)
            throw std::invalid_argument("the frame has another resolution than the footprint");
        return {(x - frame.origin_x) / frame.resolution,
                frame.height - (y - frame.origin_y) / frame.resolution, theta, -1};
    }

    static constexpr double farthest = 1 << 20;        // cells off the map that clearances are told
    static constexpr double moved = 1.001 / 16384;     // cells: what rounding takes, of floats too
    static constexpr double slack = 1.0 / 8192;  // more than rounding moves any corner, in cells
    static constexpr double root_half = 0.70710678118654757;

    Footprint(const std::vector<Point>& points, double cell, std::optional<double> resolution)
        : outline_(detail::outline_of(in_steps(points, cell))), resolution_(resolution) {
        inner_ = detail::largest_reach;
        detail::each_side(outline_, [&](Corner a, Corner b) {
            const auto twice = static_cast<double>(detail::cross(a, b, {0, 0}));
            inner_ = std::min(inner_, twice / detail::length(a, b) / detail::steps);
            outer_ = std::max(outer_, detail::length({0, 0}, a) / detail::steps);
        });
        inner_ -= slack, outer_ += slack;
    }

    static std::vector<Corner> in_steps(const std::vector<Point>& points, double cell) {
        if (!detail::is_positive(cell))
            detail::bad_footprint("a cell has a size above 0 in metres");
        if (points.size() < 3 || points.size() > detail::most_corners)
            detail::bad_footprint("a footprint has 3 to 128 points");
        std::vector<Corner> corners;
        for (Point point : points) {
            if (!detail::is_finite(point.x) || !detail::is_finite(point.y))
                detail::bad_footprint("a point of a footprint isn't finite");
            const double x = point.x / cell, y = point.y / cell;
            if (std::hypot(x, y) > detail::largest_reach)
                detail::bad_footprint("a footprint reaches 4096 cells from its centre at most");
            corners.push_back(
                {detail::rounded(x * detail::steps), detail::rounded(y * detail::steps)});
        }
        return corners;
    }

    /// By the squares around the outer circle and in the inner one, whose bits show whether they
    /// have an obstacle, and if these don't decide, by the corners.
    bool asked(const Map& map, const Pose& pose) const {
        if (is_far(map, pose)) return map.edge() == Edge::wall;
        const Square outer(map.size(), pose, outer_), inner(map.size(), pose, inner_ * root_half);
        if (outer.is_inside || map.edge() == Edge::open) {
            if (!outer.has_obstacle(map)) return false;
        }
        return (inner_ > 0 && inner.has_obstacle(map)) || by_corners(map, pose);
    }

    /// By a look-up, if the field has Euclidean distances.
    bool asked(const Field& field, const Pose& pose) const {
        const Map& map = field.map();
        if (field.metric() != Metric::euclid2) return asked(map, pose);
        if (is_far(map, pose)) return map.edge() == Edge::wall;
        const double column = std::floor(pose.x), row = std::floor(pose.y);
        if (0 <= column && column < map.size().width && 0 <= row && row < map.size().height) {
            const Cell cell{static_cast<int>(column), static_cast<int>(row)};
            const double off = length(pose.x - column - 0.5, pose.y - row - 0.5);
            const double away = outer_ + root_half + off;
            if (field.distance(cell) > away * away) return false;
            const Cell near = field.obstacle(cell);
            if (length(across(near.x, pose.x), across(near.y, pose.y)) < inner_) return true;
        }
        return by_corners(map, pose);
    }

    /// Whether a pose is too far from the map to cover one of its cells.
    bool is_far(const Map& map, const Pose& pose) const {
        const Size size = map.size();
        if (size.width == 0) detail::check(CLEARMAP_SIZE);
        check_pose(pose);
        const double far = outer_ + 1;
        return !(-far <= pose.x && pose.x <= size.width + far && -far <= pose.y &&
                 pose.y <= size.height + far);
    }

    static double length(double x, double y) noexcept { return std::sqrt(x * x + y * y); }

    /// How far a column or a row of cells is from a coordinate.
    static double across(int cell, double at) noexcept {
        return std::max({cell - at, at - cell - 1, 0.0});
    }

    /// The cells of a map that a square around a pose meets.
    struct Square {
        Square(Size size, const Pose& pose, double reach) noexcept
            : x0(cell(pose.x - reach, size.width)),
              x1(cell(pose.x + reach + 1, size.width)),
              y0(cell(pose.y - reach, size.height)),
              y1(cell(pose.y + reach + 1, size.height)),
              is_inside(pose.x >= reach && pose.x + reach <= size.width && pose.y >= reach &&
                        pose.y + reach <= size.height) {}

        bool has_obstacle(const Map& map) const noexcept {
            const std::size_t stride = map.bits().stride;
            for (int first = x0 / 64 * 64; first < x1; first += 64) {
                const std::uint64_t mask = detail::bits_of(x0 - first, x1 - first);
                const std::uint64_t* column = map.words().data() + first / 64;
                for (int y = y0; y < y1; ++y)
                    if (column[static_cast<std::size_t>(y) * stride] & mask) return true;
            }
            return false;
        }

        int x0, x1, y0, y1;
        bool is_inside;

    private:
        static int cell(double at, int size) noexcept {
            return std::clamp(static_cast<int>(std::floor(at)), 0, size);
        }
    };

    /// Writes the corners at a pose, which turn from x to y, and returns their number.
    template <class AnyCorner>
    std::size_t place(const Pose& pose, AnyCorner* corners) const noexcept {
        using Steps = decltype(AnyCorner::x);
        const std::int64_t cosine = detail::rounded(std::cos(pose.theta) * detail::unit);
        const std::int64_t sine = detail::rounded(std::sin(pose.theta) * detail::unit);
        const std::int64_t across = detail::rounded(pose.x * detail::steps);
        const std::int64_t down = detail::rounded(pose.y * detail::steps);
        auto in_steps = [](std::int64_t turned) {
            return detail::floored(turned + detail::unit / 2, detail::unit);
        };
        AnyCorner* next = corners;
        for (Corner c : outline_)
            *next++ = {
                static_cast<Steps>(across + in_steps(c.x * cosine - c.y * sine)),
                static_cast<Steps>(down + in_steps(pose.down * (c.x * sine + c.y * cosine)))};
        if (pose.down < 0) std::reverse(corners, next);
        return outline_.size();
    }

    /// By the library's call, whose answer for these corners is proved. It refuses a ring that
    /// isn't convex: where rounding has put a corner on a side or inside, their hull is asked.
    bool by_corners(const Map& map, const Pose& pose) const {
        clearmap_corner corners[detail::most_corners];
        std::size_t count = place(pose, corners);
        const clearmap_bits bits = map.marked_bits();
        std::uint8_t hit = 0;
        auto ask = [&] {
            return clearmap_bits_hits(map.words().data(), map.words().size(), &bits,
                                      detail::numbered(map.edge()), corners, count, &hit);
        };
        std::uint32_t status = ask();
        if (status == CLEARMAP_BENT) {
            count = detail::to_hull(corners, count);
            status = ask();
        }
        detail::check(status);
        return hit != 0;
    }

    /// The clearance of the corners' hull, rounded down.
    double gap(const Map& map, const Pose& pose) const {
        if (map.size().width == 0) detail::check(CLEARMAP_SIZE);
        check_pose(pose);
        if (std::abs(pose.x) > farthest || std::abs(pose.y) > farthest)
            throw std::invalid_argument("a pose is at most 1048576 cells off");
        Corner corners[detail::most_corners];
        const std::size_t count = detail::to_hull(corners, place(pose, corners));
        detail::Place places[detail::most_corners];
        std::transform(corners, corners + count, places, [](Corner c) {
            return detail::Place{static_cast<double>(c.x), static_cast<double>(c.y)};
        });
        const double found = detail::nearest_gap(map, detail::Gaps(places, count));
        if (found >= detail::nowhere) return std::numeric_limits<double>::infinity();
        return std::max(found / detail::steps - moved, 0.0) * resolution_.value_or(1);
    }

    std::vector<Corner> outline_;
    std::optional<double> resolution_;
    double inner_ = 0, outer_ = 0;
};

}  // namespace clearmap

#endif
