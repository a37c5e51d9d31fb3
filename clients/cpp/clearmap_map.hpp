// A map in process, for planners: queries and tables of distances without a server. One header over
// clearmap.h, whose library is linked (-lclearmap -pthread), and clearmap.hpp, whose cells, answers
// and frames it shares: C++17. The library is proved. This file and clearmap_field.hpp, which it
// includes, are not (test_map.cpp and test_field.cpp try them). Robots of any convex shape are in
// clearmap_footprint.hpp, signed distances in clearmap_signed.hpp, costs around obstacles in
// clearmap_inflate.hpp, and shapes to draw in clearmap_shapes.hpp.
//
//     clearmap::Frame frame{640, 480, 0.05, -8, -5.5};  // of ROS: 0.05 m a cell, and the origin
//     auto map = clearmap::Map::of_costmap(costmap, frame, {253, 254});  // unknown: to 255
//     auto path = frame.staircase({{0.5, 0.5}, {4.2, 1.2}});             // metres; none: it leaves
//     if (map.is_clear(frame.clear_distance(0.3), *path)) ..   // room for a radius of 0.3 m
//     clearmap::Field field(map);                      // all distances, made by several threads
//     double free = field.free_metres(frame, 2, 2);    // a look-up, never more than there is
//     field.paint(8, 0, 16, 8);                        // the field's own map, and its distances
//     auto nears = map.at_many(cells);                 // a vector of cells: one call for all
//     auto slope = field.distance_and_gradient(frame, 2, 2);   // in metres, bilinear
//     double cells;
//     if (map.is_valid(3, 4, cells)) ..                // as OMPL's isValid(state, dist), in cells
//
// Columns x and rows y count from 0, and row 0 is the top one. A distance is in cells, from the
// middle of one to the middle of another: euclid2 is the square of the Euclidean one, city and
// chess count steps.
//
// Threads. Any threads may query one map or field at the same time, without a lock. While a thread
// paints, clears, updates, assigns to, moves or destroys one, no other may use it.
//
// Errors. A wrong call throws with the text of its status: std::out_of_range for a cell, rectangle
// or point that isn't in the map, std::invalid_argument for everything else. A call that throws has
// changed nothing. A query with valid arguments throws nothing and allocates nothing, but that
// at_many and clear_many allocate their answers: they, calls that make a map or a field, and those
// that change a field may throw std::bad_alloc. A library of another version is a
// std::runtime_error.
#ifndef CLEARMAP_MAP_HPP
#define CLEARMAP_MAP_HPP

#include "clearmap.h"
#include "clearmap.hpp"

#include <bitset>
#include <cassert>
#include <new>
#include <string_view>
#include <thread>

namespace clearmap {

/// What surrounds a map: nothing, or a frame of obstacles.
enum class Edge { open, wall };

/// The bytes that mark obstacles: low to high. Throws std::invalid_argument for a number that is no
/// byte, and would become another one.
///
///     {65, 100}    an occupancy grid's occupied cells
///     {65, 255}    these and the unknown ones, which are -1
///     {253, 254}   a costmap's lethal cells
///     {253, 255}   these and the unknown ones
///     {0, 0}       an image's zeros
struct Range {
    std::uint8_t low, high;
    Range() = default;
    constexpr Range(detail::Whole low, detail::Whole high) : low(byte(low)), high(byte(high)) {}

private:
    static constexpr std::uint8_t byte(int number) {
        return 0 <= number && number <= 255
                   ? static_cast<std::uint8_t>(number)
                   : throw std::invalid_argument("a byte is 0 to 255, and not " +
                                                 std::to_string(number));
    }
};

/// The order of a map's rows in memory: the top one first, as in images, or, as in ROS's occupancy
/// grids and costmaps, the lowest first. In a Map row 0 is the top one, as in a Frame. But with
/// `upwards_kept` the lowest, which is first in memory, is row 0 of the Map too: its cells are the
/// costmap's own, and no call takes it with a Frame.
enum class Rows { downwards, upwards, upwards_kept };

/// A vector in the plane, by columns and by rows.
struct Direction {
    double x, y;
    friend bool operator==(Direction a, Direction b) { return a.x == b.x && a.y == b.y; }
};

struct Slope;

namespace detail {

inline constexpr std::size_t most_points = 1000;

/// Throws what a status says; nothing for DONE.
inline void check(std::uint32_t status) {
    if (status == CLEARMAP_DONE) return;
    if (status == CLEARMAP_MEMORY) throw std::bad_alloc();
    if (status == CLEARMAP_OUTSIDE) throw std::out_of_range(clearmap_status_text(status));
    throw std::invalid_argument(clearmap_status_text(status));
}

/// Throws std::runtime_error unless the linked library is of the header's version but for the last
/// number, with which no call and no layout changes. It looks once.
inline void check_version() {
    [[maybe_unused]] static const bool is_right = [] {
        const std::string linked = clearmap_version(), own = CLEARMAP_VERSION;
        if (linked.compare(0, own.rfind('.') + 1, own, 0, own.rfind('.') + 1) != 0)
            throw std::runtime_error("libclearmap " + linked + " is linked, and the header is of " +
                                     own);
        return true;
    }();
}

/// A number of a metric, an edge, a column or a row: a negative one is in no map.
template <class Value>
constexpr std::uint32_t numbered(Value value) {
    return static_cast<std::uint32_t>(value);
}
static_assert(numbered(Metric::euclid2) == CLEARMAP_EUCLID2 &&
              numbered(Metric::city) == CLEARMAP_CITY &&
              numbered(Metric::chess) == CLEARMAP_CHESS && numbered(Edge::open) == CLEARMAP_OPEN &&
              numbered(Edge::wall) == CLEARMAP_WALL);

/// Whether a type is one of cells in bytes: void is none, as an array of any type converts to it.
template <class Type>
inline constexpr bool is_byte = sizeof(std::conditional_t<std::is_void_v<Type>, int, Type>) == 1;

inline std::optional<Near> answer(const clearmap_near& near) {
    if (near.dist == CLEARMAP_NO_OBSTACLE) return std::nullopt;
    return Near{near.dist, {near.x, near.y}};
}

inline std::optional<Tightest> answer(const clearmap_found& found) {
    if (found.near.dist == CLEARMAP_NO_OBSTACLE) return std::nullopt;
    return Tightest{found.near.dist, {found.cell.x, found.cell.y}, {found.near.x, found.near.y}};
}

/// A distance by a metric as a Euclidean one, or as steps, in cells.
inline double in_cells(std::uint32_t distance, Metric metric) noexcept {
    if (distance == CLEARMAP_NO_OBSTACLE) return std::numeric_limits<double>::infinity();
    return metric == Metric::euclid2 ? std::sqrt(static_cast<double>(distance)) : distance;
}

/// The least Euclidean distance in cells that a distance by a metric can be.
inline double least_in_cells(std::uint32_t distance, Metric metric) noexcept {
    const double cells = in_cells(distance, metric);
    return metric == Metric::city && bits(cells) != infinite_bits ? cells / std::sqrt(2.0) : cells;
}

/// The bits x0 to x1 - 1 of a word of columns 0 to 63; at least one.
constexpr std::uint64_t bits_of(int x0, int x1) noexcept {
    const int from = x0 < 0 ? 0 : x0, to = x1 > 64 ? 64 : x1;
    return ~std::uint64_t{0} << from & ~std::uint64_t{0} >> (64 - to);
}

/// The unit vector from one cell to another. None if they are the same.
inline std::optional<Direction> direction(Cell from, Cell to) noexcept {
    if (from == to) return std::nullopt;
    const double x = to.x - from.x, y = to.y - from.y, length = std::sqrt(x * x + y * y);
    return Direction{x / length, y / length};
}

/// Points as the library takes them, without heap memory. Too many become none, which has the same
/// status.
struct Points {
    clearmap_cell cells[most_points];
    std::size_t length = 0;

    Points(const Cell* first, std::size_t count) {
        if (count > most_points) return;
        for (; length < count; ++length)
            cells[length] = {narrow(first[length].x), narrow(first[length].y)};
    }

private:
    /// A column or a row in 16 bits; what is outside every map stays outside.
    static std::uint16_t narrow(int at) {
        return static_cast<std::uint16_t>(at < 0 || at > 65535 ? 65535 : at);
    }
};

/// Reads a PBM image, plain or raw, by the rules of docs/use/FORMATS.md. Throws the first fault
/// from its front, by its name there.
class ImageReader {
public:
    explicit ImageReader(std::string_view image) : rest_(image) {
        std::string_view magic = image.substr(0, 2);
        if (magic.empty() || magic == "P") bad("Truncated");
        if (magic != "P1" && magic != "P4") bad("BadMagic");
        plain_ = magic == "P1";
        rest_.remove_prefix(2);
        gap();
        width_ = side();
        gap();
        height_ = side();
    }

    Size size() const { return {width_, height_}; }

    /// Sets the bits of the black pixels in rows of this many words, which are all 0.
    void read(std::vector<std::uint64_t>& words, std::size_t stride) {
        space();
        if (plain_)
            read_plain(words, stride);
        else
            read_raw(words, stride);
    }

private:
    [[noreturn]] static void bad(const char* fault) {
        throw std::invalid_argument(std::string("BadImage ") + fault);
    }
    static bool blank(char c) { return c == ' ' || c == '\t' || c == '\r' || c == '\n'; }
    static bool digit(char c) { return '0' <= c && c <= '9'; }

    char front() const {
        if (rest_.empty()) bad("Truncated");
        return rest_.front();
    }
    char take() {
        char c = front();
        rest_.remove_prefix(1);
        return c;
    }

    /// One whitespace byte.
    void space() {
        char c = take();
        if (c == '#') bad("BadComment");
        if (!blank(c)) bad("MissingSpace");
    }

    /// Whitespace and comments, up to another byte.
    void blanks() {
        for (; front() == '#' || blank(front()); take())
            if (front() == '#')
                while (front() != '\r' && front() != '\n') take();
    }

    void gap() {
        space();
        blanks();
    }

    int side() {
        if (!digit(front())) bad("BadNumber");
        int value = 0;
        for (; !rest_.empty() && digit(rest_.front()); rest_.remove_prefix(1))
            if (value <= largest_side) value = 10 * value + (rest_.front() - '0');
        if (value == 0) bad("ZeroSize");
        if (value > largest_side) bad("TooLarge");
        return value;
    }

    void read_plain(std::vector<std::uint64_t>& words, std::size_t stride) {
        blanks();
        for (int y = 0; y < height_; ++y)
            for (int x = 0; x < width_; ++x) set(words, stride, x, y, pixel());
        if (!rest_.empty() && !blank(rest_.front())) bad("JunkNotSpaced");
    }

    bool pixel() {
        if (front() == '#') bad("BadComment");
        if (blank(front())) blanks();
        char c = take();
        if (c != '0' && c != '1') bad("BadPixel");
        return c == '1';
    }

    void read_raw(std::vector<std::uint64_t>& words, std::size_t stride) {
        const int row = (width_ + 7) / 8;
        if (rest_.size() < static_cast<std::size_t>(row) * static_cast<std::size_t>(height_))
            bad("Truncated");
        for (int y = 0; y < height_; ++y, rest_.remove_prefix(static_cast<std::size_t>(row)))
            for (int x = 0; x < width_; ++x) {
                int byte = static_cast<unsigned char>(rest_[static_cast<std::size_t>(x) / 8]);
                set(words, stride, x, y, (byte >> (7 - x % 8) & 1) != 0);
            }
    }

    static void set(std::vector<std::uint64_t>& words, std::size_t stride, int x, int y,
                    bool black) {
        words[static_cast<std::size_t>(y) * stride + static_cast<std::size_t>(x) / 64] |=
            std::uint64_t{black} << (x % 64);
    }

    std::string_view rest_;
    bool plain_ = false;
    int width_ = 0, height_ = 0;
};

}  // namespace detail

// ---- the map

/// A map of 1 to 4096 columns and rows, and what surrounds it: one bit per cell. It can be copied
/// and moved; a map that was moved from has the size 0 by 0, and no cells.
class Map {
public:
    /// A map without obstacles. The first map of a program throws std::runtime_error if the library
    /// is of another version than this header, but for the last number.
    explicit Map(Size size, Edge edge = Edge::open) : size_(size), edge_(edge) {
        detail::check_version();
        auto side = [](int cells) { return 1 <= cells && cells <= detail::largest_side; };
        if (!side(size.width) || !side(size.height)) detail::check(CLEARMAP_SIZE);
        if (edge != Edge::open && edge != Edge::wall) detail::check(CLEARMAP_EDGE);
        words_.resize(tiles() + (static_cast<std::size_t>(size.height) + 63) / 64);
        mark();
    }

    /// A costmap or an occupancy grid of ROS at its place in the world, in a vector, an array or a
    /// span: its rows one after another, the lowest first, exactly as many bytes as the frame has
    /// cells. Row 0 of the map is the top one, as the frame has it.
    template <class Bytes, class Element = decltype(*std::data(std::declval<const Bytes&>()))>
    static Map of_costmap(const Bytes& cells, const Frame& frame, Range obstacles,
                          Edge edge = Edge::open) {
        return of_bytes(cells, frame.size(), obstacles, Rows::upwards, edge);
    }

    /// The same from a pointer, as of costmap_2d's `getCharMap()`: `length` bytes.
    template <class Byte>
    static Map of_costmap(const Byte* cells, std::size_t length, const Frame& frame,
                          Range obstacles, Edge edge = Edge::open) {
        if (length != detail::numbered(frame.width) * std::size_t{detail::numbered(frame.height)})
            throw std::invalid_argument("the costmap has another number of cells than the frame");
        return of_bytes(cells, length, detail::numbered(frame.width), frame.size(), obstacles,
                        Rows::upwards, edge);
    }

    /// A map in bytes, in a vector, an array or a span: its rows one after another, exactly width
    /// times height bytes.
    template <class Bytes, class Element = decltype(*std::data(std::declval<const Bytes&>()))>
    static Map of_bytes(const Bytes& cells, Size size, Range obstacles, Rows rows,
                        Edge edge = Edge::open) {
        static_assert(detail::is_byte<std::remove_reference_t<Element>>,
                      "a map is bytes: its elements have the size 1");
        Map map(size, edge);
        std::size_t width = map.width(), length = std::size(cells);
        if (length > width * static_cast<std::size_t>(size.height))
            throw std::invalid_argument("the map's memory goes on after its last row");
        map.pack(std::data(cells), length, width, obstacles, rows);
        return map;
    }

    /// The same in a larger array: `stride` bytes from one row to the next, and `length` bytes from
    /// `cells` to the end of the array.
    template <class Byte>
    static Map of_bytes(const Byte* cells, std::size_t length, std::size_t stride, Size size,
                        Range obstacles, Rows rows, Edge edge = Edge::open) {
        static_assert(detail::is_byte<Byte>, "a map is bytes: its elements have the size 1");
        Map map(size, edge);
        map.pack(cells, length, stride, obstacles, rows);
        return map;
    }

    /// A PBM image, plain or raw (docs/use/FORMATS.md), as Pinned::dump answers it; black is an
    /// obstacle. Throws std::invalid_argument with the name of the first fault, as "BadImage
    /// BadMagic".
    static Map of_pbm(std::string_view image, Edge edge = Edge::open) {
        detail::ImageReader reader(image);
        Map map(reader.size(), edge);
        reader.read(map.words_, map.stride());
        map.mark();
        return map;
    }

    Size size() const noexcept { return words_.empty() ? Size{0, 0} : size_; }
    Edge edge() const noexcept { return edge_; }
    /// Whether row 0 is the lowest, by Rows::upwards_kept: no call takes the map with a Frame.
    bool is_upside_down() const noexcept { return is_upside_down_; }

    /// The bits, as the calls of clearmap.h take them with `bits()`, and the marks of blank tiles
    /// after the last row: the bits after a row's last column are 0.
    const std::vector<std::uint64_t>& words() const& noexcept { return words_; }
    const std::vector<std::uint64_t>& words() const&& = delete;  // they would end with the map
    /// The layout without the marks of tiles, which fit these words as a whole alone.
    clearmap_bits bits() const noexcept {
        return {detail::numbered(size().width), detail::numbered(size().height), stride(),
                blank_bands_, 0};
    }
    /// The layout with the marks: for calls over all of `words()`, whose queries they speed up.
    clearmap_bits marked_bits() const noexcept {
        clearmap_bits bits = this->bits();
        bits.tiles = words_.empty() ? 0 : tiles();
        return bits;
    }

    /// Whether the sizes, the edges, the obstacles and the order of the rows are the same.
    friend bool operator==(const Map& a, const Map& b) {
        return a.size() == b.size() && a.edge_ == b.edge_ && a.words_ == b.words_ &&
               a.is_upside_down_ == b.is_upside_down_;
    }
    friend bool operator!=(const Map& a, const Map& b) { return !(a == b); }

    // -- queries

    /// The nearest obstacle of a cell. None if the map has none.
    std::optional<Near> at(Cell c, Metric m = Metric::euclid2) const {
        clearmap_near near{};
        ask(clearmap_bits_at, m, detail::numbered(c.x), detail::numbered(c.y), &near);
        return detail::answer(near);
    }
    std::optional<Near> at(detail::Whole x, detail::Whole y, Metric m = Metric::euclid2) const {
        return at(Cell{x, y}, m);
    }

    /// `at` of each of many cells, in their order. Throws std::out_of_range for the first that
    /// isn't in the map, with its index.
    std::vector<std::optional<Near>> at_many(const std::vector<Cell>& cells,
                                             Metric m = Metric::euclid2) const {
        std::vector<std::optional<Near>> found;
        found.reserve(cells.size());
        clearmap_near nears[detail::most_points];
        ask_many(clearmap_bits_at_many, m, cells, nears, [&](std::size_t count) {
            for (std::size_t k = 0; k < count; ++k) found.push_back(detail::answer(nears[k]));
        });
        return found;
    }

    /// Whether no obstacle is nearer than a distance to each of many cells, as is_clear of a path
    /// of that one cell. It is faster than at_many if the distance is small. Throws as that does.
    template <class Integer, class = detail::IfInteger<Integer>>
    [[nodiscard]] std::vector<bool> clear_many(const std::vector<Cell>& cells, Integer distance,
                                               Metric m = Metric::euclid2) const {
        std::vector<bool> found;
        found.reserve(cells.size());
        std::uint8_t clear[detail::most_points];
        ask_many(
            clearmap_bits_clear_many, m, cells, clear,
            [&](std::size_t count) { found.insert(found.end(), clear, clear + count); },
            detail::in_32_bits(distance));
        return found;
    }
    /// A distance is an integer: round a fraction up, or use Frame::clear_distance.
    template <class Real, class = detail::IfReal<Real>, class = void>
    std::vector<bool> clear_many(const std::vector<Cell>& cells, Real distance,
                                 Metric m = Metric::euclid2) const = delete;

    /// The first cell, in row-major order, with the least distance in columns x0 to x1 - 1 of rows
    /// y0 to y1 - 1. None if the map has no obstacle.
    std::optional<Tightest> rect(detail::Whole x0, detail::Whole y0, detail::Whole x1,
                                 detail::Whole y1, Metric m = Metric::euclid2) const {
        clearmap_found found{};
        ask(clearmap_bits_rect, m, detail::numbered(x0), detail::numbered(y0), detail::numbered(x1),
            detail::numbered(y1), &found);
        return detail::answer(found);
    }

    /// The first cell along a path of 1 to 1000 points with the least distance. None if the map has
    /// no obstacle.
    std::optional<Tightest> path(const Path& p, Metric m = Metric::euclid2) const {
        return tightest(p.data(), p.size(), m);
    }

    /// None if each cell of the path has at least this distance, otherwise the first that hasn't:
    /// `is_clear` says whether the path is clear. With euclid2 the distance is a square. With 0
    /// every path is clear, even one through obstacles.
    [[nodiscard]] std::optional<Tightest> clear_of(std::uint32_t distance, const Path& p,
                                                   Metric m = Metric::euclid2) const {
        const detail::Points points(p.data(), p.size());
        clearmap_found found{};
        ask(clearmap_bits_clear_of, m, points.cells, points.length, distance, &found);
        return detail::answer(found);
    }
    template <class Integer, class = detail::IfOtherInteger<Integer>>
    [[nodiscard]] std::optional<Tightest> clear_of(Integer distance, const Path& p,
                                                   Metric m = Metric::euclid2) const {
        return clear_of(detail::in_32_bits(distance), p, m);
    }
    /// A distance is an integer: round a fraction up, or use Frame::clear_distance.
    template <class Real, class = detail::IfReal<Real>, class = void>
    std::optional<Tightest> clear_of(Real distance, const Path& p,
                                     Metric m = Metric::euclid2) const = delete;

    /// Whether each cell of the path has at least this distance.
    template <class Integer, class = detail::IfInteger<Integer>>
    [[nodiscard]] bool is_clear(Integer distance, const Path& p,
                                Metric m = Metric::euclid2) const {
        return !clear_of(distance, p, m);
    }
    template <class Real, class = detail::IfReal<Real>, class = void>
    bool is_clear(Real distance, const Path& p, Metric m = Metric::euclid2) const = delete;

    /// The Euclidean distance of a path's tightest cell to its nearest obstacle, in cells from
    /// centre to centre; infinite if the map has none. The path has at least one point.
    double clearance(const Path& p) const {
        std::uint32_t least = CLEARMAP_NO_OBSTACLE;
        std::size_t start = 0;
        do {  // pieces share their ends
            std::size_t count = std::min(detail::most_points, p.size() - start);
            auto found = tightest(p.data() + start, count, Metric::euclid2);
            if (found) least = std::min(least, found->distance);
            start += detail::most_points - 1;
        } while (start + 1 < p.size());
        return detail::in_cells(least, Metric::euclid2);
    }

    /// Whether a cell is on the map and free, and its Euclidean distance to the nearest obstacle in
    /// cells, from middle to middle: 0 for a cell that isn't on the map, infinite if the map has
    /// none.
    /// A cell is two integers: Frame::cell gives that of a point in metres.
    [[nodiscard]] bool is_valid(detail::Whole x, detail::Whole y, double& clearance) const {
        clearance = 0;
        if (!inside(x, y)) return false;
        auto near = at({x, y});
        clearance = detail::in_cells(near ? near->distance : CLEARMAP_NO_OBSTACLE, Metric::euclid2);
        return clearance > 0;
    }

    /// The unit vector away from a cell's nearest obstacle. None in an obstacle, and if the map has
    /// none.
    std::optional<Direction> gradient(Cell c, Metric m = Metric::euclid2) const {
        auto near = at(c, m);
        return near ? detail::direction(near->obstacle, c) : std::nullopt;
    }

    /// The distance at a point in metres, its gradient and what is free, as of Slope. None for a
    /// point off the map. Throws std::invalid_argument if the frame's size differs from the map's,
    /// and for a map whose row 0 is the lowest.
    std::optional<Slope> distance_and_gradient(const Frame& frame, double x, double y) const;

    /// Whether a cell is an obstacle.
    bool is_obstacle(Cell c) const {
        if (!inside(c.x, c.y)) detail::check(CLEARMAP_OUTSIDE);
        return (words_[word(c.x, c.y)] >> (c.x % 64) & 1) != 0;
    }

    /// The map whose obstacles are this one's free cells. Its edge is open.
    Map inverse() const {
        Map map(size());
        map.is_upside_down_ = is_upside_down_;
        const std::uint64_t last = ~std::uint64_t{0} >> (63 - (width() - 1) % 64);
        for (std::size_t k = 0; k < tiles(); ++k)
            map.words_[k] = ~words_[k] & ((k + 1) % stride() == 0 ? last : ~std::uint64_t{0});
        map.mark();
        return map;
    }

    // -- changes

    /// Makes columns x0 to x1 - 1 of rows y0 to y1 - 1 obstacles, and returns how many cells
    /// changed.
    std::uint32_t paint(detail::Whole x0, detail::Whole y0, detail::Whole x1, detail::Whole y1) {
        return draw(x0, y0, x1, y1, true);
    }

    /// Makes these cells free, and returns how many changed.
    std::uint32_t clear(detail::Whole x0, detail::Whole y0, detail::Whole x1, detail::Whole y1) {
        return draw(x0, y0, x1, y1, false);
    }

private:
    static constexpr int band = 64;  // rows

    std::size_t width() const noexcept { return static_cast<std::size_t>(size_.width); }
    std::size_t stride() const noexcept { return (width() + 63) / 64; }
    /// Where the marks of tiles begin: after the last row.
    std::size_t tiles() const noexcept {
        return stride() * static_cast<std::size_t>(size_.height);
    }
    std::size_t word(int x, int y) const noexcept {
        return static_cast<std::size_t>(y) * stride() + static_cast<std::size_t>(x) / 64;
    }
    bool inside(int x, int y) const noexcept {
        return 0 <= x && x < size().width && 0 <= y && y < size().height;
    }

    /// Makes a call of the library on these bits, and returns the status.
    template <class Call, class... Asked>
    std::uint32_t status_of(Call call, Metric m, Asked... asked) const {
        static constexpr std::uint64_t none = 0;
        const clearmap_bits map = marked_bits();
        return call(words_.empty() ? &none : words_.data(), words_.size(), &map,
                    detail::numbered(m), detail::numbered(edge_), asked...);
    }
    template <class Call, class... Asked>
    void ask(Call call, Metric m, Asked... asked) const {
        detail::check(status_of(call, m, asked...));
    }

    /// Makes a call for many cells, piece by piece, and takes the answers of each.
    template <class Call, class Answer, std::size_t most, class Take, class... Asked>
    void ask_many(Call call, Metric m, const std::vector<Cell>& cells, Answer (&answers)[most],
                  Take take, Asked... asked) const {
        std::size_t start = 0;
        do {
            const std::size_t count = std::min(most, cells.size() - start);
            const detail::Points piece(cells.data() + start, count);
            std::size_t wrong = 0;
            const std::uint32_t status =
                status_of(call, m, piece.cells, count, asked..., answers, most, &wrong);
            if (status == CLEARMAP_OUTSIDE)
                throw std::out_of_range(detail::named(start + wrong, cells[start + wrong]) +
                                        clearmap_status_text(status));
            detail::check(status);
            take(count);
            start += count;
        } while (start < cells.size());
    }

    std::optional<Tightest> tightest(const Cell* first, std::size_t count, Metric m) const {
        const detail::Points points(first, count);
        clearmap_found found{};
        ask(clearmap_bits_path, m, points.cells, points.length, &found);
        return detail::answer(found);
    }

    /// Takes the cells from bytes.
    void pack(const void* cells, std::size_t length, std::size_t stride, Range obstacles,
              Rows rows) {
        static constexpr std::uint8_t none = 0;
        const clearmap_bytes from{detail::numbered(size_.width), detail::numbered(size_.height),
                                  stride, obstacles.low, obstacles.high};
        clearmap_bits to{};
        detail::check(clearmap_pack(length == 0 ? &none : static_cast<const std::uint8_t*>(cells),
                                    length, &from, words_.data(), tiles(), &to));
        if (rows == Rows::upwards) flip();
        is_upside_down_ = rows == Rows::upwards_kept;
        mark();
    }

    /// Reverses the order of the rows.
    void flip() {
        for (int y = 0; y < size_.height / 2; ++y) {
            auto upper = words_.begin() + static_cast<std::ptrdiff_t>(word(0, y));
            auto lower =
                words_.begin() + static_cast<std::ptrdiff_t>(word(0, size_.height - 1 - y));
            std::swap_ranges(upper, upper + static_cast<std::ptrdiff_t>(stride()), lower);
        }
    }

    /// Marks the blank tiles and bands of the whole map, which its cells say.
    void mark() {
        clearmap_bits map = bits();
        map.blank_bands = 0;
        detail::check(clearmap_mark(words_.data(), words_.size(), &map, tiles()));
        blank_bands_ = map.blank_bands;
    }

    /// Marks the blank tiles of the bands of some rows, and these bands, by their cells alone; bits
    /// past the last column become 0.
    void mark_bands(int y0, int y1) {
        for (int b = y0 / band; b <= (y1 - 1) / band; ++b) {
            const int rows = std::min(band, size_.height - b * band);
            const std::size_t start = word(0, b * band);
            for (int y = 0; y < rows && width() % 64 != 0; ++y)
                words_[start + static_cast<std::size_t>(y + 1) * stride() - 1] &=
                    ~(~std::uint64_t{0} << width() % 64);
            clearmap_bits part = bits();
            part.height = detail::numbered(rows), part.blank_bands = 0;
            detail::check(clearmap_mark(words_.data() + start, words_.size() - start, &part,
                                        tiles() + static_cast<std::size_t>(b) - start));
            const std::uint64_t bit = std::uint64_t{1} << b;
            blank_bands_ = part.blank_bands % 2 == 1 ? blank_bands_ | bit : blank_bands_ & ~bit;
        }
    }

    std::uint32_t draw(int x0, int y0, int x1, int y1, bool obstacles) {
        if (!(inside(x0, y0) && x0 < x1 && y0 < y1 && inside(x1 - 1, y1 - 1)))
            detail::check(CLEARMAP_OUTSIDE);
        const std::uint32_t full = count(x0, y0, x1, y1);
        clearmap_bits map = marked_bits();
        auto drawn = [&](auto call) {
            detail::check(call(words_.data(), words_.size(), &map, detail::numbered(x0),
                               detail::numbered(y0), detail::numbered(x1), detail::numbered(y1)));
        };
        obstacles ? drawn(clearmap_paint) : drawn(clearmap_clear);
        mark_bands(y0, y1);
        return obstacles ? detail::numbered((x1 - x0) * (y1 - y0)) - full : full;
    }

    /// How many cells of a box are obstacles.
    std::uint32_t count(int x0, int y0, int x1, int y1) const noexcept {
        std::size_t found = 0;
        for (int y = y0; y < y1; ++y)
            for (int first = x0 / 64 * 64; first < x1; first += 64)
                found += std::bitset<64>(words_[word(first, y)] &
                                         detail::bits_of(x0 - first, x1 - first))
                             .count();
        return static_cast<std::uint32_t>(found);
    }

    Size size_;
    Edge edge_;
    bool is_upside_down_ = false;
    std::uint64_t blank_bands_ = ~std::uint64_t{0};
    std::vector<std::uint64_t> words_;
};

namespace detail {

/// Throws unless a map can lie in a frame: it has its size, and row 0 at the top.
inline void check_frame(const Frame& frame, const Map& map) {
    if (!(frame.size() == map.size()))
        throw std::invalid_argument("the frame has another size than the map");
    if (map.is_upside_down())
        throw std::invalid_argument(
            "row 0 of the map is the lowest, and that of a frame the top one: make the map by "
            "Rows::upwards, or by of_costmap");
}

}  // namespace detail

/// A pinned version, by one DUMP. A server's answer doesn't say its edge: give the one that it was
/// started with (`serve --edge`), or the distances differ from its own.
inline Map map_of(Pinned& pinned, Edge edge) { return Map::of_pbm(pinned.dump(), edge); }

}  // namespace clearmap

#include "clearmap_field.hpp"

#endif
