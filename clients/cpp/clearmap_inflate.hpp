// Costs around obstacles as costmap_2d inflates them, over clearmap_map.hpp. The distances are
// proved, and that each cell has its entry of the table; the table isn't (test_many.cpp).
//
//     auto costs = clearmap::inflate(map, {0.3, 0.55, 10, 0.05});  // row 0 is the map's
#ifndef CLEARMAP_INFLATE_HPP
#define CLEARMAP_INFLATE_HPP

#include "clearmap_map.hpp"

namespace clearmap {

/// The rule of costmap_2d: a cost by a cell's distance from its nearest obstacle, from middle to
/// middle, which is exact here. It is 254 in an obstacle, and 253 up to the inscribed radius. From
/// there on it is 252 * exp(-scaling * (distance - inscribed)), rounded down. Beyond the inflation
/// radius, which is taken in whole cells, rounded up, it is 0. All is in metres, and computed in
/// doubles as costmap_2d computes it: three cells of 0.05 are above an inscribed radius of 0.15.
class Inflation {
public:
    /// Throws std::invalid_argument for a radius or a factor below 0 or not finite, a resolution
    /// that isn't above 0, and an inflation radius below the inscribed one, which costmap_2d warns
    /// of.
    Inflation(double inscribed, double radius, double scaling, double resolution) {
        for (double number : {inscribed, radius, scaling})
            if (!detail::is_below(number, std::numeric_limits<double>::max()))
                throw std::invalid_argument("a radius or a factor is 0 or more, and finite");
        if (!detail::is_positive(resolution))
            throw std::invalid_argument("a resolution is above 0, and finite");
        if (radius < inscribed)
            throw std::invalid_argument("the inflation radius is below the inscribed radius");
        constexpr double most = 2 * detail::largest_side;
        const double reach = std::min(std::ceil(radius / resolution), most);
        costs_.push_back(254);
        for (std::uint32_t square = 1; square <= reach * reach && square <= farthest; ++square) {
            const double metres = std::sqrt(static_cast<double>(square)) * resolution;
            costs_.push_back(metres <= inscribed ? 253
                                                 : fallen(-1.0 * scaling * (metres - inscribed)));
            if (costs_.back() == 0) break;  // and so are all after it
        }
        if (costs_.back() != 0) costs_.push_back(0);
    }

    /// The costs of the squares 0, 1, 2 .. of distances in cells. The last, 0, is that of all
    /// others.
    const std::vector<std::uint8_t>& costs() const noexcept { return costs_; }

private:
    static constexpr std::uint32_t farthest = 2 * 4097 * 4097;

    static std::uint8_t fallen(double power) {
        return static_cast<std::uint8_t>(252 * std::exp(power));
    }

    std::vector<std::uint8_t> costs_;
};

/// The cost of each cell of a map, row by row from row 0 on. Throws std::invalid_argument for a
/// map that was moved from.
inline std::vector<std::uint8_t> inflate(const Map& map, const Inflation& inflation) {
    const clearmap_bits bits = map.bits();
    std::vector<std::uint8_t> told(std::size_t{bits.width} * bits.height);
    if (told.empty()) detail::check(CLEARMAP_SIZE);
    const std::vector<std::uint8_t>& costs = inflation.costs();
    detail::check(clearmap_bits_costs(map.words().data(), map.words().size(), &bits,
                                      CLEARMAP_EUCLID2, detail::numbered(map.edge()), costs.data(),
                                      costs.size(), 0, bits.height, told.data(), told.size()));
    return told;
}

}  // namespace clearmap

#endif
