// Distances in metres between the middles of cells, and the slope of the same surface, for
// clearmap_field.hpp: include clearmap_map.hpp instead. Not proved; test_many.cpp compares it with
// the same in longer floats.
#ifndef CLEARMAP_SLOPE_HPP
#define CLEARMAP_SLOPE_HPP

#include "clearmap_map.hpp"

namespace clearmap {

/// Of a point in metres: the distance from obstacles there, how it grows to the right and upwards,
/// in metres a metre, and what is free around it in any case.
///
/// The distance is a surface over the middles of the cells, at each of which it is the Euclidean
/// one of the cell, from middle to middle. Between the four middles around a point it is bilinear.
/// Let the point be a part f of a cell to the right of the left ones, and a part g below the upper
/// ones. The distance is then
///
///     (1 - g) * ((1 - f) * upper left + f * upper right)
///         + g * ((1 - f) * lower left + f * lower right)
///
/// Off the map, the nearest middle on it stands for a middle; with Edge::wall the middles of the
/// frame are 0, as obstacles. So it is 0 at the middle of an obstacle, and nowhere below 0.
///
/// The gradient is that of this surface: on a line through middles that of the square to the right
/// of it, or below. The distance isn't a safe bound: it is less or more than that of the point
/// itself to the nearest obstacle's middle, by at most 0.71 of a cell. `free` is one: never more
/// than the distance of any point of the cell from any point of an obstacle, as of
/// Frame::free_metres. Without an obstacle both are infinite, and the gradient is 0.
struct Slope {
    double distance;
    Direction gradient;
    double free;
};

namespace detail {

/// The last middle up to a coordinate in cells, and how far it is from there to the next.
struct Between {
    int before;
    double part;

    explicit Between(double place) noexcept
        : before(static_cast<int>(std::floor(place - 0.5))), part(place - 0.5 - before) {}
};

/// The surface at a point of a frame's map, by the clearances of cells; none off the map.
template <class Clearance>
std::optional<Slope> slope(const Map& map, const Frame& frame, double x, double y,
                           Clearance clearance) {
    check_frame(frame, map);
    const std::optional<Cell> own = frame.cell(x, y);
    if (!own) return std::nullopt;
    const double room = clearance(*own);
    if (bits(room) == infinite_bits) return Slope{room, {0, 0}, room};
    auto within = [](double at, int side) { return std::clamp<double>(at, 0, side); };
    const Between across(within((x - frame.origin_x) / frame.resolution, frame.width));
    const Between down(
        within(frame.height - (y - frame.origin_y) / frame.resolution, frame.height));
    auto at = [&](int column, int row) {
        const Cell c{std::clamp(column, 0, frame.width - 1), std::clamp(row, 0, frame.height - 1)};
        if (map.edge() == Edge::wall && !(c == Cell{column, row})) return 0.0;
        return c == *own ? room : clearance(c);
    };
    const double upper = at(across.before, down.before);
    const double upper_step = at(across.before + 1, down.before) - upper;
    const double lower = at(across.before, down.before + 1);
    const double lower_step = at(across.before + 1, down.before + 1) - lower;
    const double above = upper + across.part * upper_step;
    const double below = lower + across.part * lower_step;
    return Slope{frame.metres((1 - down.part) * above + down.part * below),
                 {(1 - down.part) * upper_step + down.part * lower_step, above - below},
                 frame.free_metres(room)};
}

}  // namespace detail

inline std::optional<Slope> Map::distance_and_gradient(const Frame& frame, double x,
                                                       double y) const {
    return detail::slope(*this, frame, x, y, [this](Cell c) {
        const auto near = at(c);
        return detail::in_cells(near ? near->distance : CLEARMAP_NO_OBSTACLE, Metric::euclid2);
    });
}

}  // namespace clearmap

#endif
