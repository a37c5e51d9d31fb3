// Tables of all distances of a map, for clearmap_map.hpp, which includes this file: include that.
// Updates after a change of the map aren't proved; test_field.cpp compares them with rebuilt
// fields.
#ifndef CLEARMAP_FIELD_HPP
#define CLEARMAP_FIELD_HPP

#include "clearmap_map.hpp"
#include "clearmap_slope.hpp"
#include "clearmap_table.hpp"
#include "clearmap_window.hpp"

namespace clearmap {

/// The nearest obstacle of each cell of a map by one metric: 8 bytes per cell, of which a look-up
/// reads one. It can be moved; a field that was moved from has the size 0 by 0.
///
/// A field has a copy of its map, and answers only for that copy: painting the original map doesn't
/// change the field. `paint`, `clear` and `update` change the copy and recompute only the cells
/// that this can change; then each cell has the answer of a rebuilt field. The first of them reads
/// the table once more, and allocates a little memory. A call may temporarily allocate as much as
/// another field; if `clear` finds none it is slower.
class Field {
public:
    /// Shares the rows among this many threads, each of which takes 3.3 MB on the largest map; 0 is
    /// as many as the machine runs at a time, but at most one per 2^18 cells. Throws
    /// std::invalid_argument for a map that was moved from.
    explicit Field(Map map, Metric metric = Metric::euclid2, unsigned threads = 0)
        : map_(std::move(map)), table_(checked(map_.size()), metric), threads_(threads) {
        detail::check(fill());
    }

    /// The map that the field answers for.
    const Map& map() const& noexcept { return map_; }
    const Map& map() const&& = delete;  // it would end with the field
    Size size() const noexcept { return map_.size(); }
    Metric metric() const noexcept { return table_.metric(); }

    /// The nearest obstacle of a cell. None if the map has none; throws std::out_of_range for a
    /// cell that isn't in the map.
    std::optional<Near> at(Cell c) const {
        if (!inside(c)) detail::check(CLEARMAP_OUTSIDE);
        return detail::answer(near(c));
    }
    std::optional<Near> at(detail::Whole x, detail::Whole y) const { return at(Cell{x, y}); }

    // -- look-ups of a cell that IS in the map; only an assertion checks it

    /// The distance by the field's metric; CLEARMAP_NO_OBSTACLE if the map has no obstacle.
    std::uint32_t distance(Cell c) const noexcept { return near(c).dist; }

    /// The nearest obstacle; CLEARMAP_NOWHERE twice if the map has none.
    Cell obstacle(Cell c) const noexcept { return {near(c).x, near(c).y}; }

    /// The unit vector away from the nearest obstacle. None in an obstacle, and if the map has
    /// none.
    std::optional<Direction> gradient(Cell c) const noexcept {
        if (distance(c) == CLEARMAP_NO_OBSTACLE) return std::nullopt;
        return detail::direction(obstacle(c), c);
    }

    /// The distance in cells from middle to middle, the Euclidean one for euclid2; infinite if the
    /// map has no obstacle.
    double clearance(Cell c) const noexcept { return detail::in_cells(distance(c), metric()); }

    /// Never more than the Euclidean distance of a point in metres from any obstacle's cell, in
    /// metres: that of all points of its cell, as Frame::free_metres tells it, by any metric. 0 for
    /// a point outside. Throws std::invalid_argument if the frame's size differs from the map's,
    /// and for a map whose row 0 is the lowest.
    double free_metres(const Frame& frame, double x, double y) const {
        detail::check_frame(frame, map_);
        auto cell = frame.cell(x, y);
        return cell ? frame.free_metres(detail::least_in_cells(distance(*cell), metric())) : 0;
    }

    /// The clearance of a point's cell in metres, from the middle of the cell to the middle of the
    /// obstacle's. The point itself may be nearer, by up to sqrt(2) cells: see `free_metres`, which
    /// throws the same. 0 for a point outside.
    double metres(const Frame& frame, double x, double y) const {
        detail::check_frame(frame, map_);
        auto cell = frame.cell(x, y);
        return cell ? frame.metres(clearance(*cell)) : 0;
    }

    /// As of the map, by look-ups. Throws std::invalid_argument too if the field's metric isn't
    /// euclid2.
    std::optional<Slope> distance_and_gradient(const Frame& frame, double x, double y) const {
        if (metric() != Metric::euclid2)
            throw std::invalid_argument("a slope is of a field by euclid2");
        return detail::slope(map_, frame, x, y, [this](Cell c) { return clearance(c); });
    }

    // -- changes

    /// Makes columns x0 to x1 - 1 of rows y0 to y1 - 1 obstacles, and returns how many cells
    /// changed.
    std::uint32_t paint(detail::Whole x0, detail::Whole y0, detail::Whole x1, detail::Whole y1) {
        ready();
        std::uint32_t changed = map_.paint(x0, y0, x1, y1);
        if (changed > 0) table_.paint({x0, y0, x1, y1});
        return changed;
    }

    /// Makes these cells free, and returns how many changed.
    std::uint32_t clear(detail::Whole x0, detail::Whole y0, detail::Whole x1, detail::Whole y1) {
        ready();
        std::uint32_t changed = map_.clear(x0, y0, x1, y1);
        const detail::Box box{x0, y0, x1, y1};
        if (changed > 0) rework(&box, &box + 1);
        return changed;
    }

    /// Makes this the field of another map, or of its own as it is now: compares the bits of both,
    /// and recomputes what they change. Recomputes the whole of a map of another size or edge, or
    /// with many changes. Throws std::invalid_argument for a map that was moved from.
    void update(const Map& map) {
        if (!(checked(map.size()) == size())) return remake(map);
        if (map.edge() != map_.edge() || map.is_upside_down() != map_.is_upside_down())
            return refill(map);
        const std::size_t most = table_.cells() / cells_a_change;
        const detail::Changes changes(map_, map, most);
        if (changes.count() > most) return refill(map);
        ready();
        follow(map, changes);
        const std::vector<detail::Box>& cleared = changes.cleared.boxes;
        rework(cleared.data(), cleared.data() + cleared.size());
        for (const detail::Box& box : changes.painted.boxes) table_.paint(box);
    }

private:
    friend class SignedField;

    static constexpr std::size_t few_cells = 128;        // of a box, asked for one by one
    static constexpr std::size_t few_boxes = 8;          // which are drawn one by one
    static constexpr std::size_t cells_a_change = 2048;  // a field of fewer cells is rebuilt

    static Size checked(Size size) {
        if (size.width == 0) detail::check(CLEARMAP_SIZE);
        return size;
    }
    bool inside(Cell c) const noexcept {
        return 0 <= c.x && c.x < size().width && 0 <= c.y && c.y < size().height;
    }
    const clearmap_near& near(Cell c) const noexcept {
        assert(inside(c));
        return table_[c];
    }

    /// Prepares the table for changes, before the first one. A field that was moved from has no
    /// table.
    void ready() {
        if (size().width > 0 && !table_.is_bounded()) table_.bound();
    }
    void remake(const Map& map) { *this = Field(map, metric(), threads_); }

    /// The same for a map of this size, in the memory that there is: cell by cell for rows for
    /// which the library finds no memory.
    void refill(const Map& map) {
        map_ = map;  // takes no memory: the sizes are the same
        table_.unbound();
        try {
            if (fill() == CLEARMAP_DONE) return;
        } catch (const std::bad_alloc&) {
        }
        for (int y = 0; y < size().height; ++y)
            for (int x = 0; x < size().width; ++x) table_.row(y)[x] = query({x, y});
    }

    /// Makes the field's map equal to another of its size, without allocating.
    void follow(const Map& map, const detail::Changes& changes) {
        if (changes.count() > few_boxes) {
            map_ = map;
            return;
        }
        for (const detail::Box& b : changes.cleared.boxes) map_.clear(b.x0, b.y0, b.x1, b.y1);
        for (const detail::Box& b : changes.painted.boxes) map_.paint(b.x0, b.y0, b.x1, b.y1);
    }

    // -- all rows

    /// How many threads are worth starting for this many cells.
    static unsigned chosen(std::size_t cells) {
        std::size_t most = std::max<std::size_t>(1, cells >> 18);
        return static_cast<unsigned>(
            std::min<std::size_t>(std::max(1u, std::thread::hardware_concurrency()), most));
    }

    /// Fills the table by threads, and returns the first status that isn't DONE; does the work of a
    /// thread that can't be started itself.
    std::uint32_t fill() {
        const auto height = detail::numbered(size().height);
        const unsigned wanted = threads_ > 0 ? threads_ : chosen(table_.cells());
        const unsigned threads = std::max(1u, std::min(wanted, height));
        std::vector<std::uint32_t> statuses(threads);
        std::vector<std::thread> started;
        started.reserve(threads);
        auto work = [&](unsigned k) noexcept {
            statuses[k] = rows(height * k / threads, height * (k + 1) / threads);
        };
        for (unsigned k = 1; k < threads; ++k) {
            try {
                started.emplace_back(work, k);
            } catch (const std::exception&) {
                work(k);
            }
        }
        work(0);
        for (std::thread& thread : started) thread.join();
        return *std::max_element(statuses.begin(), statuses.end());
    }

    /// Fills rows y0 to y1 - 1, and returns the status.
    std::uint32_t rows(std::uint32_t y0, std::uint32_t y1) noexcept {
        const clearmap_bits bits = map_.bits();
        return clearmap_bits_nearest(map_.words().data(), map_.words().size(), &bits,
                                     detail::numbered(metric()), detail::numbered(map_.edge()), y0,
                                     y1, table_.row(static_cast<int>(y0)),
                                     (y1 - y0) * std::size_t{bits.width});
    }

    // -- the cells whose obstacle is gone

    /// Recomputes the cells whose nearest obstacle was in one of some boxes, which are now free.
    /// The others keep theirs: the nearest of all obstacles is also the nearest of those left.
    void rework(const detail::Box* first, const detail::Box* last) noexcept {
        try {
            if (by_windows(first, last)) return;
        } catch (const std::bad_alloc&) {
        }
        for (; first != last; ++first)  // which takes no memory
            table_.held_by(*first, [&](Cell c) { by_query(c); });
    }

    /// The same by windows, and whether it is done. The first window around the cells of a box
    /// gives most answers; larger and larger windows do what is left of all boxes together.
    bool by_windows(const detail::Box* first, const detail::Box* last) {
        const std::size_t most = table_.cells() / 4;
        std::vector<Cell> left;
        for (; first != last; ++first) {
            std::vector<Cell> cells;
            table_.held_by(*first, [&](Cell c) {
                if (cells.size() <= most) cells.push_back(c);
            });
            if (cells.size() > most) return filled();
            if (cells.size() > few_cells) by_window(cells, detail::box_of(cells).longer_side());
            if (cells.size() > few_cells)
                left.insert(left.end(), cells.begin(), cells.end());
            else
                by_queries(cells);
        }
        int margin = detail::box_of(left).longer_side();
        while (left.size() > few_cells) by_window(left, margin *= 2);
        by_queries(left);
        return true;
    }

    /// Rebuilds the table, and returns whether there was memory for it.
    bool filled() {
        const std::uint32_t status = fill();
        table_.bound();
        return status == CLEARMAP_DONE;
    }

    void by_window(std::vector<Cell>& cells, int margin) {
        const detail::Window window(map_, metric(), detail::box_of(cells), margin);
        auto is_done = [&](Cell c) {
            auto near = window.at(c);
            if (near) table_.set(c, *near);
            return near.has_value();
        };
        cells.erase(std::remove_if(cells.begin(), cells.end(), is_done), cells.end());
    }

    void by_queries(const std::vector<Cell>& cells) noexcept {
        for (Cell c : cells) by_query(c);
    }
    void by_query(Cell c) noexcept { table_.set(c, query(c)); }
    clearmap_near query(Cell c) const noexcept {
        clearmap_near found{};
        const clearmap_bits bits = map_.bits();
        [[maybe_unused]] const std::uint32_t status = clearmap_bits_at(
            map_.words().data(), map_.words().size(), &bits, detail::numbered(metric()),
            detail::numbered(map_.edge()), detail::numbered(c.x), detail::numbered(c.y), &found);
        assert(status == CLEARMAP_DONE);
        return found;
    }

    Map map_;
    detail::Table table_;
    unsigned threads_;
};

}  // namespace clearmap

#endif
