// Boxes of cells, for clearmap_field.hpp: which obstacle of a full box is nearest to a cell, and
// which boxes differ between two maps. Include clearmap_map.hpp instead.
#ifndef CLEARMAP_BOXES_HPP
#define CLEARMAP_BOXES_HPP

#include "clearmap_map.hpp"

namespace clearmap::detail {

/// Columns x0 to x1 - 1 of rows y0 to y1 - 1.
struct Box {
    int x0, y0, x1, y1;

    int area() const noexcept { return (x1 - x0) * (y1 - y0); }
    int longer_side() const noexcept { return std::max(x1 - x0, y1 - y0); }
    bool has(int x, int y) const noexcept { return x0 <= x && x < x1 && y0 <= y && y < y1; }
};

/// The cells in both of two boxes.
inline Box meet(const Box& a, const Box& b) noexcept {
    return {std::max(a.x0, b.x0), std::max(a.y0, b.y0), std::min(a.x1, b.x1), std::min(a.y1, b.y1)};
}

/// The least box that contains two others.
inline Box around(const Box& a, const Box& b) noexcept {
    return {std::min(a.x0, b.x0), std::min(a.y0, b.y0), std::max(a.x1, b.x1), std::max(a.y1, b.y1)};
}

/// The least box that contains some cells.
inline Box box_of(const std::vector<Cell>& cells) noexcept {
    Box box{largest_side, largest_side, 0, 0};
    for (Cell c : cells)
        box = {std::min(box.x0, c.x), std::min(box.y0, c.y), std::max(box.x1, c.x + 1),
               std::max(box.y1, c.y + 1)};
    return box;
}

/// The distance of two cells this many columns and rows apart.
inline std::uint32_t distance(Metric metric, int columns, int rows) noexcept {
    switch (metric) {
        case Metric::euclid2: return numbered(columns * columns + rows * rows);
        case Metric::city: return numbered(columns + rows);
        default: return numbered(std::max(columns, rows));
    }
}

/// How many columns, or rows, a cell at this distance can be away at most.
inline int reach(Metric metric, std::uint32_t dist) noexcept {
    const double steps = metric == Metric::euclid2 ? std::sqrt(static_cast<double>(dist)) : dist;
    return static_cast<int>(std::min(steps, 2.0 * largest_side));
}

/// How many columns, or rows, one span of them is from another: 0 if they meet.
inline int gap(int begin, int end, int other_begin, int other_end) noexcept {
    return std::max({0, other_begin - (end - 1), begin - (other_end - 1)});
}

/// The nearest obstacle of a cell if exactly the cells of a box are obstacles, by the rule of
/// clearmap.h: the least distance, then the least column, then the fewest rows away. By euclid2 and
/// city it is the only one at this distance; by chess a whole side of the box may be.
inline clearmap_near nearest_in(const Box& box, Cell c, Metric metric) noexcept {
    int x = std::clamp(c.x, box.x0, box.x1 - 1), y = std::clamp(c.y, box.y0, box.y1 - 1);
    std::uint32_t dist = distance(metric, std::abs(x - c.x), std::abs(y - c.y));
    if (metric == Metric::chess) x = std::max(box.x0, c.x - static_cast<int>(dist));
    return {dist, static_cast<std::int16_t>(x), static_cast<std::int16_t>(y)};
}

/// Whether one of two obstacles is the nearer one of a cell in row y, by the same rule.
inline bool nearer(const clearmap_near& a, const clearmap_near& b, int y) noexcept {
    if (a.dist != b.dist) return a.dist < b.dist;
    if (a.x != b.x) return a.x < b.x;
    int rows_a = std::abs(a.y - y), rows_b = std::abs(b.y - y);
    return rows_a != rows_b ? rows_a < rows_b : a.y < b.y;
}

/// The nearest obstacle of a cell in the frame around a map.
inline clearmap_near nearest_in_frame(Size size, Cell c, Metric metric) noexcept {
    const int right = size.width, below = size.height;
    const Box sides[] = {{-1, -1, 0, below + 1},
                         {-1, -1, right + 1, 0},
                         {-1, below, right + 1, below + 1},
                         {right, -1, right + 1, below + 1}};
    clearmap_near best = nearest_in(sides[0], c, metric);
    for (const Box& side : sides) {
        clearmap_near other = nearest_in(side, c, metric);
        if (nearer(other, best, c.y)) best = other;
    }
    return best;
}

// ---- what differs between two maps

/// Boxes that cover some cells, which come by rows: runs of a row, and one box for equal runs in
/// consecutive rows.
class Runs {
public:
    /// Takes the cells of a row whose bits are set in `with` and not in `without`.
    void row(int y, const std::uint64_t* with, const std::uint64_t* without, std::size_t words) {
        int begin = -1, x = 0;
        for (std::size_t word = 0; word < words; ++word) {
            std::uint64_t bits = with[word] & ~without[word];
            if (bits == 0 && begin < 0) {
                x += 64;
                continue;
            }
            for (int end = x + 64; x < end; ++x, bits >>= 1) {
                bool in = (bits & 1) != 0;
                if (in == (begin >= 0)) continue;
                if (!in) take(y, begin, x);
                begin = in ? x : -1;
            }
        }
        if (begin >= 0) take(y, begin, x);
        end_row();
    }

    /// Ends a row without cells, or the last row.
    void end_row() {
        if (above_.empty() && here_.empty()) return;
        for (const Box& box : above_)
            if (box.y0 < box.y1) boxes.push_back(box);
        above_.swap(here_);
        here_.clear();
    }

    std::vector<Box> boxes;

private:
    /// Takes a run: as one more row of the box above it, if that has the same columns.
    void take(int y, int x0, int x1) {
        auto over = std::lower_bound(above_.begin(), above_.end(), x0,
                                     [](const Box& box, int x) { return box.x0 < x; });
        bool same = over != above_.end() && over->x0 == x0 && over->x1 == x1;
        here_.push_back({x0, same ? over->y0 : y, x1, y + 1});
        if (same) over->y1 = over->y0;  // it is empty now
    }

    std::vector<Box> above_, here_;  // the boxes that end with the row before, and with this one
};

/// What became free and what became an obstacle from one map to another of the same size. If these
/// are more boxes than `most`, only some of them, but more than `most`.
struct Changes {
    Runs cleared, painted;

    Changes(const Map& from, const Map& to, std::size_t most) {
        const std::uint64_t blank = from.bits().blank_bands & to.bits().blank_bands;
        for (int y = 0; y < from.size().height && count() <= most; y += 64) {
            const int end = std::min(y + 64, from.size().height);
            if ((blank >> y / 64 & 1) == 1 || same(from, to, y, end))
                end_row();
            else
                rows(from, to, y, end, most);
        }
        end_row();
        if (count() > most) return;
        join(cleared.boxes, to, false);
        join(painted.boxes, to, true);
    }

    std::size_t count() const noexcept { return cleared.boxes.size() + painted.boxes.size(); }

private:
    /// Joins boxes whose common box has only obstacles, or only free cells, and isn't much larger
    /// than both: unchanged cells do no harm in it.
    static void join(std::vector<Box>& boxes, const Map& map, bool obstacles) noexcept {
        std::size_t kept = 0;
        for (const Box box : boxes) {
            std::size_t at = kept;
            for (; at > 0 && kept - at < neighbours; --at) {
                const Box both = around(boxes[at - 1], box);
                if (both.area() > 2 * (boxes[at - 1].area() + box.area())) continue;
                if (!is_full(map, both, obstacles)) continue;
                boxes[at - 1] = both;
                break;
            }
            if (at == 0 || kept - at == neighbours) boxes[kept++] = box;
        }
        boxes.resize(kept, Box{0, 0, 0, 0});
    }

    /// Whether each cell of a box is an obstacle, or each is free.
    static bool is_full(const Map& map, const Box& box, bool obstacles) noexcept {
        for (int y = box.y0; y < box.y1; ++y)
            for (int first = box.x0 / 64 * 64; first < box.x1; first += 64) {
                const std::uint64_t mask = bits_of(box.x0 - first, box.x1 - first);
                const std::uint64_t bits = row(map, y)[first / 64] & mask;
                if (bits != (obstacles ? mask : 0)) return false;
            }
        return true;
    }

    static constexpr std::size_t neighbours = 4;  // boxes that one is joined to at most

    static const std::uint64_t* row(const Map& map, int y) noexcept {
        return map.words().data() + static_cast<std::size_t>(y) * map.bits().stride;
    }
    static bool same(const Map& from, const Map& to, int y0, int y1) noexcept {
        return std::equal(row(from, y0), row(from, y1), row(to, y0));
    }

    /// Takes what differs in rows y0 to y1 - 1.
    void rows(const Map& from, const Map& to, int y0, int y1, std::size_t most) {
        for (int y = y0; y < y1 && count() <= most; ++y)
            if (same(from, to, y, y + 1)) {
                end_row();
            } else {
                cleared.row(y, row(from, y), row(to, y), from.bits().stride);
                painted.row(y, row(to, y), row(from, y), from.bits().stride);
            }
    }

    void end_row() {
        cleared.end_row();
        painted.end_row();
    }
};

}  // namespace clearmap::detail

#endif
