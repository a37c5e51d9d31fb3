// A part of a map that is computed by itself, for clearmap_field.hpp. Include clearmap_map.hpp
// instead.
#ifndef CLEARMAP_WINDOW_HPP
#define CLEARMAP_WINDOW_HPP

#include "clearmap_boxes.hpp"

namespace clearmap::detail {

/// The nearest obstacles of a box of cells, computed by the library in a window around it, as if
/// the rest of the map were free, and which of them are also the nearest in the whole map.
class Window {
public:
    /// Throws std::bad_alloc when out of memory.
    Window(const Map& map, Metric metric, const Box& cells, int margin)
        : size_(map.size()),
          edge_(map.edge()),
          metric_(metric),
          box_(round(cells, margin, map.size())),
          first_row_(cells.y0),
          nears_(new clearmap_near[length(cells)]) {
        clearmap_bits part = map.bits();
        const std::size_t start = numbered(box_.y0) * part.stride + numbered(box_.x0) / 64;
        part.width = numbered(box_.x1 - box_.x0);
        part.height = numbered(box_.y1 - box_.y0);
        part.blank_bands = 0;
        check(clearmap_bits_nearest(map.words().data() + start, map.words().size() - start, &part,
                                    numbered(metric), CLEARMAP_OPEN, numbered(cells.y0 - box_.y0),
                                    numbered(cells.y1 - box_.y0), nears_.get(), length(cells)));
    }

    /// The nearest obstacle of one of the cells in the whole map. None if a nearer or equally near
    /// one may be outside the window.
    std::optional<clearmap_near> at(Cell c) const noexcept {
        clearmap_near near = nears_[numbered(c.y - first_row_) * width() + numbered(c.x - box_.x0)];
        if (near.dist != CLEARMAP_NO_OBSTACLE) {
            near.x = static_cast<std::int16_t>(near.x + box_.x0);
            near.y = static_cast<std::int16_t>(near.y + box_.y0);
        }
        if (edge_ == Edge::wall) {
            const clearmap_near frame = nearest_in_frame(size_, c, metric_);
            if (nearer(frame, near, c.y)) near = frame;
        }
        if (!surrounds(c, near.dist)) return std::nullopt;
        return near;
    }

private:
    /// The window around a box: its first column begins a word of the map.
    static Box round(const Box& cells, int margin, Size size) noexcept {
        return {std::max(0, cells.x0 - margin) / 64 * 64, std::max(0, cells.y0 - margin),
                std::min(size.width, cells.x1 + margin), std::min(size.height, cells.y1 + margin)};
    }

    std::size_t width() const noexcept { return numbered(box_.x1 - box_.x0); }
    std::size_t length(const Box& cells) const noexcept {
        return numbered(cells.y1 - cells.y0) * width();
    }

    /// Whether the window contains all cells of the map that are as near as this.
    bool surrounds(Cell c, std::uint32_t dist) const noexcept {
        auto over = [&](int steps, bool at_end) {
            return at_end || distance(metric_, steps, 0) > dist;
        };
        return over(c.x - box_.x0 + 1, box_.x0 == 0) &&
               over(box_.x1 - c.x, box_.x1 == size_.width) &&
               over(c.y - box_.y0 + 1, box_.y0 == 0) &&
               over(box_.y1 - c.y, box_.y1 == size_.height);
    }

    Size size_;
    Edge edge_;
    Metric metric_;
    Box box_;
    int first_row_;
    std::unique_ptr<clearmap_near[]> nears_;
};

}  // namespace clearmap::detail

#endif
