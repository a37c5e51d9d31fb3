// Signed distances, over clearmap_map.hpp: for a free cell the distance to its nearest obstacle,
// for an obstacle the negative distance to its nearest free cell. Not proved; test_signed.cpp
// compares it with a search of all cells.
//
//     clearmap::SignedField field(map);
//     double cells = field.clearance({3, 4});    // negative in an obstacle
//     auto way = field.gradient({3, 4});         // where it grows, a unit vector
#ifndef CLEARMAP_SIGNED_HPP
#define CLEARMAP_SIGNED_HPP

#include "clearmap_map.hpp"

namespace clearmap {

/// Two fields, one of a map and one of its inverse: 16 bytes per cell. With Edge::wall the frame is
/// an obstacle for the free cells; with either edge only cells of the map are free cells. It can be
/// moved, and shared by threads, as a Field can.
class SignedField {
public:
    /// As the constructor of Field.
    explicit SignedField(const Map& map, Metric metric = Metric::euclid2, unsigned threads = 0)
        : free_(map, metric, threads), blocked_(map.inverse(), metric, threads) {}

    /// The map that the field answers for.
    const Map& map() const& noexcept { return free_.map(); }
    const Map& map() const&& = delete;  // it would end with the field
    Size size() const noexcept { return free_.size(); }
    Metric metric() const noexcept { return free_.metric(); }

    // -- look-ups of a cell that IS in the map; only an assertion checks it

    /// The distance from centre to centre in cells, the Euclidean one for euclid2: at least 1 in a
    /// free cell, and at most -1 in an obstacle. Infinite if the map has no obstacle, and minus
    /// infinity if it has no free cell.
    double clearance(Cell c) const noexcept {
        const double free = free_.clearance(c);
        return free > 0 ? free : -blocked_.clearance(c);
    }

    /// The same in metres, from middle to middle, for a point in metres, which may be nearer by up
    /// to sqrt(2) cells: 0 for one outside. Throws std::invalid_argument if the frame's size
    /// differs from the map's, and for a map whose row 0 is the lowest.
    double metres(const Frame& frame, double x, double y) const {
        detail::check_frame(frame, map());
        auto cell = frame.cell(x, y);
        return cell ? frame.metres(clearance(*cell)) : 0;
    }

    /// The unit vector in which the distance grows: away from the nearest obstacle, and in an
    /// obstacle towards the nearest free cell. None if the map has no such cell.
    std::optional<Direction> gradient(Cell c) const noexcept {
        if (free_.distance(c) > 0) return free_.gradient(c);
        if (blocked_.distance(c) == CLEARMAP_NO_OBSTACLE) return std::nullopt;
        return detail::direction(c, blocked_.obstacle(c));
    }

    // -- changes, as of a Field; one that throws has changed nothing

    std::uint32_t paint(detail::Whole x0, detail::Whole y0, detail::Whole x1, detail::Whole y1) {
        ready();
        const std::uint32_t changed = free_.paint(x0, y0, x1, y1);
        blocked_.clear(x0, y0, x1, y1);
        return changed;
    }

    std::uint32_t clear(detail::Whole x0, detail::Whole y0, detail::Whole x1, detail::Whole y1) {
        ready();
        const std::uint32_t changed = free_.clear(x0, y0, x1, y1);
        blocked_.paint(x0, y0, x1, y1);
        return changed;
    }

private:
    /// Allocates the memory for changes. After that they throw only for a rectangle off the map,
    /// which is off both.
    void ready() {
        free_.ready();
        blocked_.ready();
    }

    Field free_, blocked_;
};

}  // namespace clearmap

#endif
