// The table of a field, for clearmap_field.hpp: nearest obstacles row by row, and which of its
// tiles a change can reach. Include clearmap_map.hpp instead.
#ifndef CLEARMAP_TABLE_HPP
#define CLEARMAP_TABLE_HPP

#include "clearmap_boxes.hpp"

namespace clearmap::detail {

/// The nearest obstacle of each cell by one metric. For changes it keeps an upper bound of the
/// distances in each tile of 16 by 16 cells: a box farther away than that has the nearest obstacle
/// of none of these cells, so that most tiles are skipped.
class Table {
public:
    Table(Size size, Metric metric)
        : width_(size.width),
          height_(size.height),
          metric_(metric),
          nears_(new clearmap_near[cells()]) {}  // not set to 0 first

    std::size_t cells() const noexcept { return index({0, height_}); }
    Metric metric() const noexcept { return metric_; }

    const clearmap_near& operator[](Cell c) const noexcept { return nears_[index(c)]; }
    /// The answers from row y on.
    clearmap_near* row(int y) noexcept { return nears_.get() + index({0, y}); }

    /// Reads the table for the calls below. Once it has found memory it needs no more.
    void bound() {
        tops_.assign(tiles(width_) * tiles(height_), 0);
        row_tops_.assign(tiles(height_), 0);
        for (int y = 0; y < height_; y += side)
            for (int x = 0; x < width_; x += side) raise(x, y, most(tile(x, y)));
    }

    /// Marks the table as written by `row`.
    void unbound() noexcept { row_tops_.clear(); }
    bool is_bounded() const noexcept { return !row_tops_.empty(); }

    /// Takes the cells of a box as obstacles.
    void paint(const Box& box) noexcept {
        switch (metric_) {
            case Metric::euclid2: return paint_by<Metric::euclid2>(box);
            case Metric::city: return paint_by<Metric::city>(box);
            case Metric::chess: return paint_by<Metric::chess>(box);
        }
    }

    /// Calls `visit` for each cell whose nearest obstacle is in a box.
    template <class Visit>
    void held_by(const Box& box, Visit visit) const {
        reached(box, [&](const Box& cells) {
            for (int y = cells.y0; y < cells.y1; ++y)
                for (int x = cells.x0; x < cells.x1; ++x)
                    if (const clearmap_near& near = (*this)[{x, y}]; box.has(near.x, near.y))
                        visit(Cell{x, y});
        });
    }

    /// Sets the answer of a cell.
    void set(Cell c, const clearmap_near& near) noexcept {
        nears_[index(c)] = near;
        raise(c.x, c.y, near.dist);
    }

private:
    static constexpr int side = 16;

    static std::size_t tiles(int length) noexcept {
        return static_cast<std::size_t>((length + side - 1) / side);
    }
    std::size_t index(Cell c) const noexcept {
        return static_cast<std::size_t>(c.y) * static_cast<std::size_t>(width_) +
               static_cast<std::size_t>(c.x);
    }

    /// The tile of a cell, clipped to the table.
    Box tile(int x, int y) const noexcept {
        x = x / side * side, y = y / side * side;
        return {x, y, std::min(x + side, width_), std::min(y + side, height_)};
    }
    std::size_t tile_index(int x, int y) const noexcept {
        return static_cast<std::size_t>(y / side) * tiles(width_) +
               static_cast<std::size_t>(x / side);
    }

    std::uint32_t most(const Box& box) const noexcept {
        std::uint32_t found = 0;
        for (int y = box.y0; y < box.y1; ++y)
            for (int x = box.x0; x < box.x1; ++x) found = std::max(found, (*this)[{x, y}].dist);
        return found;
    }
    void raise(int x, int y, std::uint32_t dist) noexcept {
        std::uint32_t& of_tile = tops_[tile_index(x, y)];
        std::uint32_t& of_row = row_tops_[static_cast<std::size_t>(y / side)];
        of_tile = std::max(of_tile, dist);
        of_row = std::max(of_row, dist);
    }
    /// Lowers the bounds of a tile and its row to what the table has.
    void tighten(int x, int y) noexcept {
        std::uint32_t& of_row = row_tops_[static_cast<std::size_t>(y / side)];
        const std::uint32_t old = std::exchange(tops_[tile_index(x, y)], most(tile(x, y)));
        if (old < of_row) return;
        const std::uint32_t* first = &tops_[tile_index(0, y)];
        of_row = *std::max_element(first, first + tiles(width_));
    }

    /// Calls visit(cells) for the parts of tiles that a box may reach.
    template <class Visit>
    void reached(const Box& box, Visit visit) const {
        for (int y = 0; y < height_; y += side) {
            const std::uint32_t most_of_row = row_tops_[static_cast<std::size_t>(y / side)];
            const int rows = gap(y, std::min(y + side, height_), box.y0, box.y1);
            auto away = [&](int x) {
                return distance(metric_, gap(x, std::min(x + side, width_), box.x0, box.x1), rows);
            };
            int begin = box.x0 / side * side, end = begin;
            while (begin >= side && away(begin - side) <= most_of_row) begin -= side;
            while (end < width_ && away(end) <= most_of_row) end += side;
            for (int x = begin; x < end; x += side) {
                const std::uint32_t most_of_tile = tops_[tile_index(x, y)];
                if (away(x) <= most_of_tile) visit(meet(tile(x, y), grown(box, most_of_tile)));
            }
        }
    }

    /// A box with all cells that are at most this far away.
    Box grown(const Box& box, std::uint32_t dist) const noexcept {
        const int steps = reach(metric_, dist);
        return {box.x0 - steps, box.y0 - steps, box.x1 + steps, box.y1 + steps};
    }

    template <Metric metric>
    void paint_by(const Box& box) noexcept {
        reached(box, [&](const Box& cells) {
            if (paint_cells<metric>(cells, box)) tighten(cells.x0, cells.y0);
        });
    }

    /// Takes the cells of a box as obstacles for some cells, and returns whether one changed.
    template <Metric metric>
    bool paint_cells(const Box& cells, const Box& box) noexcept {
        bool changed = false;
        for (int y = cells.y0; y < cells.y1; ++y)
            for (int x = cells.x0; x < cells.x1; ++x) {
                const clearmap_near found = nearest_in(box, {x, y}, metric);
                clearmap_near& near = nears_[index({x, y})];
                if (!nearer(found, near, y)) continue;
                near = found;
                changed = true;
            }
        return changed;
    }

    int width_, height_;
    Metric metric_;
    std::unique_ptr<clearmap_near[]> nears_;
    std::vector<std::uint32_t> tops_, row_tops_;  // of the tiles, and of each row of tiles
};

}  // namespace clearmap::detail

#endif
