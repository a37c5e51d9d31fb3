// Tests of what planners ask for many cells, points and shapes: test_many MAPS [OPEN WALLED], how
// many random maps, and the ports of two servers of a map, the border of the second a wall.
// Answers are compared with those of single calls, with a search of all cells, and with the same
// formulas in longer floats.
#include <random>

#include "clearmap_inflate.hpp"
#include "clearmap_shapes.hpp"
#include "testing.hpp"

static std::mt19937 chance(23);
static int below(int end) {
    return static_cast<int>(chance() % static_cast<unsigned>(end));
}
static double real(double from, double to) {
    return from + (to - from) * std::uniform_real_distribution<>()(chance);
}

static Map random_map() {
    Map map({1 + below(150), 1 + below(90)}, below(2) == 0 ? Edge::open : Edge::wall);
    const int share = below(4) == 0 ? 0 : 1 + below(60);
    for (int k = 0; k < map.size().width * map.size().height * share / 200; ++k) {
        const int x = below(map.size().width), y = below(map.size().height);
        map.paint(x, y, x + 1, y + 1);
    }
    return map;
}

static std::vector<Cell> random_cells(Size size, int count) {
    std::vector<Cell> cells;
    for (int k = 0; k < count; ++k) cells.push_back({below(size.width), below(size.height)});
    return cells;
}

static bool same(const std::optional<Near>& a, const std::optional<Near>& b) {
    return a.has_value() == b.has_value() &&
           (!a || (a->distance == b->distance && a->obstacle == b->obstacle));
}

// ---- many cells

static void many_cells(int maps) {
    for (int turn = 0; turn < maps; ++turn) {
        const Map map = random_map();
        for (Metric m : {Metric::euclid2, Metric::city, Metric::chess}) {
            const auto cells = random_cells(map.size(), turn % 5 == 0 ? 2500 : below(30));
            const auto d = static_cast<std::uint32_t>(below(3) == 0 ? below(2) : below(200));
            const auto found = map.at_many(cells, m);
            const std::vector<bool> clear = map.clear_many(cells, d, m);
            CHECK(found.size() == cells.size() && clear.size() == cells.size());
            for (std::size_t k = 0; k < cells.size(); ++k) {
                CHECK(same(found[k], map.at(cells[k], m)));
                CHECK(clear[k] == map.is_clear(d, {cells[k]}, m));
            }
        }
    }
}

static void refused_cells() {
    const Map map({30, 20});
    std::vector<Cell> cells(1234, Cell{1, 2});
    for (auto wrong : {Cell{30, 0}, {-1, 0}, {0, 20}, {0, -1}, {65536, 0}, {1 << 30, 0}})
        for (std::size_t at : std::initializer_list<std::size_t>{0, 999, 1000, 1233}) {
            auto asked = cells;
            asked[at] = asked.back() = wrong;
            const std::string words = "cell " + std::to_string(at) + " is (" +
                                      std::to_string(wrong.x) + ", " + std::to_string(wrong.y) +
                                      "): ";
            CHECK(throws<std::out_of_range>([&] { map.at_many(asked); }, words));
            CHECK(throws<std::out_of_range>([&] { (void)map.clear_many(asked, 3); }, words));
            Map painted = map;
            CHECK(throws<std::out_of_range>([&] { paint_cells(painted, asked); }, words));
            CHECK(painted == map);
        }
    CHECK(throws<std::invalid_argument>([&] { (void)map.clear_many(cells, -1); }));
    CHECK(throws<std::invalid_argument>([&] { (void)map.clear_many(cells, 1ll << 32); }));
    CHECK(map.at_many({}).empty() && map.clear_many({}, 1).empty());
    Map moved({3, 3});
    const Map taken = std::move(moved);
    CHECK(throws<std::invalid_argument>([&] { moved.at_many({}); }));
    CHECK(throws<std::invalid_argument>([&] { map.at_many({}, static_cast<Metric>(7)); }));
}

static void pins(const char* port, Edge edge) {
    Client client(std::atoi(port));
    Pinned pinned = client.pin();
    const Map map = map_of(pinned, edge);
    for (Metric m : {Metric::euclid2, Metric::city, Metric::chess}) {
        const auto cells = random_cells(map.size(), 200);
        const auto found = pinned.at_many(cells, m), wanted = map.at_many(cells, m);
        CHECK(found.size() == wanted.size());
        for (std::size_t k = 0; k < cells.size(); ++k) CHECK(same(found[k], wanted[k]));
    }
    std::vector<Cell> cells(150, Cell{1, 2});
    cells[140] = {64, 3};
    CHECK(throws<Refused>([&] { pinned.at_many(cells); }, "cell 140 is (64, 3): "));
    cells[70] = {3, -1};
    CHECK(refused(BadArguments, "BadArguments", {}, [&] { pinned.at_many(cells); }));
    CHECK(pinned.at_many({}).empty() && same(pinned.at({5, 7}), map.at({5, 7})));
}

// ---- slopes

using Long = long double;

/// The distance of a middle in cells, off the map too.
static Long middle(const Map& map, int column, int row) {
    const Cell c{std::clamp(column, 0, map.size().width - 1),
                 std::clamp(row, 0, map.size().height - 1)};
    if (map.edge() == Edge::wall && !(c == Cell{column, row})) return 0;
    return std::sqrt(static_cast<Long>(map.at(c)->distance));
}

static bool near(double told, Long wanted) {
    return std::abs(static_cast<Long>(told) - wanted) < 1e-9L;
}

static void check_slope(const Map& map, const Frame& frame, double x, double y) {
    const Field field(map, Metric::euclid2, 1);
    const auto told = map.distance_and_gradient(frame, x, y);
    const auto looked = field.distance_and_gradient(frame, x, y);
    CHECK(told && looked && told->distance == looked->distance && told->free == looked->free &&
          told->gradient == looked->gradient);
    const Cell own = *frame.cell(x, y);
    if (!map.at(own)) {
        CHECK(told->distance > 1e300 && told->free > 1e300 && (told->gradient == Direction{0, 0}));
        return;
    }
    const Long size = frame.resolution, across = (x - static_cast<Long>(frame.origin_x)) / size,
               down = frame.height - (y - static_cast<Long>(frame.origin_y)) / size;
    const int left = static_cast<int>(std::floor(across - 0.5L)),
              top = static_cast<int>(std::floor(down - 0.5L));
    const Long f = across - 0.5L - left, g = down - 0.5L - top;
    const Long a = middle(map, left, top), b = middle(map, left + 1, top),
               c = middle(map, left, top + 1), d = middle(map, left + 1, top + 1);
    CHECK(
        near(told->distance, size * ((1 - g) * ((1 - f) * a + f * b) + g * ((1 - f) * c + f * d))));
    CHECK(near(told->gradient.x, (1 - g) * (b - a) + g * (d - c)));
    CHECK(near(told->gradient.y, -((1 - f) * (c - a) + f * (d - b))));
    const double cells = detail::in_cells(map.at(own)->distance, Metric::euclid2);
    CHECK(told->free == frame.free_metres(cells));
}

static void slopes(int maps) {
    for (int turn = 0; turn < maps; ++turn) {
        const Map map = random_map();
        const Frame frame(map.size().width, map.size().height, 0.25, -3, 2);
        for (int k = 0; k < 9; ++k) {  // anywhere, on lines through middles, on borders of cells
            const double fine = k % 3 == 0 ? 0.0123 : 0;
            check_slope(map, frame, -3 + 0.125 * below(2 * map.size().width) + fine,
                        2 + 0.125 * below(2 * map.size().height) + fine);
        }
        const double right = -3 + 0.25 * map.size().width, above = 2 + 0.25 * map.size().height;
        CHECK(map.distance_and_gradient(frame, -3, 2));
        for (auto off :
             {Point{-3.01, 2}, {right, 2}, {-3, 1.99}, {-3, above}, {NAN, 2}, {-3, INFINITY}})
            CHECK(!map.distance_and_gradient(frame, off.x, off.y));
    }
    const Map map({4, 3});
    const Frame other(3, 3, 1.0);
    CHECK(throws<std::invalid_argument>([&] { map.distance_and_gradient(other, 1, 1); }));
    const Frame own(4, 3, 1.0);
    CHECK(throws<std::invalid_argument>(
        [&] { Field(map, Metric::city).distance_and_gradient(own, 1, 1); }));
    const std::vector<std::uint8_t> cells(12);
    const Map kept = Map::of_bytes(cells, {4, 3}, {1, 255}, Rows::upwards_kept);
    CHECK(throws<std::invalid_argument>([&] { kept.distance_and_gradient(own, 1, 1); }));
}

// ---- inflated costs

/// computeCost of costmap_2d's inflation layer, and where it ends.
static std::uint8_t cost(std::uint32_t square, double inscribed, double radius, double scaling,
                         double resolution) {
    const double distance = std::sqrt(static_cast<double>(square));
    if (distance > std::max(0.0, std::ceil(radius / resolution))) return 0;
    if (distance == 0) return 254;
    if (distance * resolution <= inscribed) return 253;
    const double factor = std::exp(-1.0 * scaling * (distance * resolution - inscribed));
    return static_cast<std::uint8_t>((253 - 1) * factor);
}

static void costs(int maps) {
    const double settings[][4] = {
        {0.3, 0.55, 10, 0.05}, {0.15, 0.55, 3, 0.05}, {0, 0, 1, 0.05},          {0, 1, 0, 0.1},
        {0.2, 0.2, 5, 0.05},   {1, 3, 0.5, 0.25},     {0.3, 0.55, 1e300, 0.05}, {0, 1e9, 0.01, 1}};
    for (int turn = 0; turn < maps; ++turn) {
        const Map map = random_map();
        const double* s = settings[turn % 8];
        const auto told = inflate(map, Inflation(s[0], s[1], s[2], s[3]));
        const Size size = map.size();
        CHECK(told.size() == static_cast<std::size_t>(size.width) * detail::numbered(size.height));
        for (int k = 0; k < 300; ++k) {
            const Cell c{below(size.width), below(size.height)};
            const auto found = map.at(c);
            const auto at = static_cast<std::size_t>(c.y * size.width + c.x);
            CHECK(told[at] == (found ? cost(found->distance, s[0], s[1], s[2], s[3]) : 0));
        }
    }
    for (const auto& s : settings) {
        const Inflation inflation(s[0], s[1], s[2], s[3]);
        const auto& table = inflation.costs();
        CHECK(table.back() == 0 && (table.size() < 3 || table[table.size() - 2] != 0));
        for (std::uint32_t square = 0; square < table.size(); ++square)
            CHECK(table[square] == cost(square, s[0], s[1], s[2], s[3]) ||
                  square + 1 == table.size());
    }
    for (auto wrong : {std::array<double, 4>{-1, 1, 1, 1},
                       {0, -1, 1, 1},
                       {0, 1, -1, 1},
                       {0, 1, 1, 0},
                       {2, 1, 1, 1},
                       {NAN, 1, 1, 1},
                       {0, INFINITY, 1, 1},
                       {0, 1, NAN, 1},
                       {0, 1, 1, -1},
                       {0, 1, 1, INFINITY}})
        CHECK(throws<std::invalid_argument>(
            [&] { Inflation(wrong[0], wrong[1], wrong[2], wrong[3]); }));
    Map moved({3, 3});
    const Map taken = std::move(moved);
    CHECK(throws<std::invalid_argument>([&] { inflate(moved, {0, 1, 1, 1}); }));
}

// ---- shapes

static std::int64_t rounded(double cells) {
    return static_cast<std::int64_t>(std::floor(cells * 65536 + 0.5));
}

/// Whether the square of a cell meets the inside of a disc: by its nearest point.
static bool in_disc(Cell c, double x, double y, double radius) {
    auto gap = [](int cell, double at) {
        const std::int64_t begin = std::int64_t{cell} * 65536, place = rounded(at);
        return static_cast<Long>(std::max({begin - place, place - begin - 65536, std::int64_t{0}}));
    };
    const Long dx = gap(c.x, x), dy = gap(c.y, y), r = static_cast<Long>(rounded(radius));
    return dx * dx + dy * dy < r * r;
}

/// Whether no side of a polygon and none of the square of a cell separates them.
static bool in_polygon(Cell c, const std::vector<Point>& points) {
    using Whole = std::int64_t;
    const Whole x = Whole{c.x} * 65536, y = Whole{c.y} * 65536, one = 65536;
    Whole left = INT64_MAX, right = INT64_MIN, low = INT64_MAX, high = INT64_MIN, area = 0;
    auto corner = [&](std::size_t k) {
        const Point p = points[k % points.size()];
        return std::pair<Whole, Whole>{rounded(p.x), rounded(p.y)};
    };
    for (std::size_t k = 0; k < points.size(); ++k) {
        const auto a = corner(k), b = corner(k + 1);
        left = std::min(left, a.first), right = std::max(right, a.first);
        low = std::min(low, a.second), high = std::max(high, a.second);
        area += a.first * b.second - a.second * b.first;
    }
    if (!(x < right && left < x + one && y < high && low < y + one)) return false;
    const Whole sign = area > 0 ? 1 : -1;
    for (std::size_t k = 0; k < points.size(); ++k) {
        const auto a = corner(k), b = corner(k + 1);
        bool any = false;
        for (Whole px : {x, x + one})
            for (Whole py : {y, y + one})
                any = any || sign * ((b.first - a.first) * (py - a.second) -
                                     (b.second - a.second) * (px - a.first)) >
                                 0;
        if (!any) return false;
    }
    return true;
}

/// Draws a shape on a map and its field, and looks at each cell.
template <class Paint, class Clear, class Holds>
static void drawn(Map map, Paint paint, Clear clear, Holds holds) {
    Field field(map, Metric::euclid2, 1);
    const Map before = map;
    for (bool paints : {true, false, true}) {
        std::uint32_t changed = 0;
        for (int y = 0; y < map.size().height; ++y)
            for (int x = 0; x < map.size().width; ++x)
                changed += holds(Cell{x, y}) && map.is_obstacle({x, y}) != paints;
        CHECK((paints ? paint(map) : clear(map)) == changed);
        CHECK((paints ? paint(field) : clear(field)) == changed);
        CHECK(field.map() == map);
        for (int y = 0; y < map.size().height; ++y)
            for (int x = 0; x < map.size().width; ++x) {
                const Cell c{x, y};
                CHECK(map.is_obstacle(c) == (holds(c) ? paints : before.is_obstacle(c)));
                CHECK(same(field.at(c), map.at(c)));
            }
    }
}

static void shapes(int maps) {
    for (int turn = 0; turn < maps; ++turn) {
        const Map map = random_map();
        const double width = map.size().width, height = map.size().height;
        const double x = turn % 3 == 0 ? below(60) : real(-5, width + 5), y = real(-5, height + 5),
                     r = turn % 3 == 0 ? 1 + below(4) : real(0.001, 20);
        drawn(
            map, [&](auto& it) { return paint_disc(it, x, y, r); },
            [&](auto& it) { return clear_disc(it, x, y, r); },
            [&](Cell c) { return in_disc(c, x, y, r); });
        std::vector<Point> points;
        const int count = 3 + below(6);
        for (int k = 0; k < count; ++k)
            points.push_back({x + r * std::cos(6.283185307 * k / count),
                              y + 9 * std::sin(6.283185307 * k / count)});
        if (turn % 3 == 1) points = {{3, 4}, {9, 4}, {9, 7}, {3, 7}};
        if (turn % 2 == 1) std::reverse(points.begin(), points.end());
        drawn(
            map, [&](auto& it) { return paint_polygon(it, points); },
            [&](auto& it) { return clear_polygon(it, points); },
            [&](Cell c) { return in_polygon(c, points); });
        const auto cells = random_cells(map.size(), below(60));
        drawn(
            map, [&](auto& it) { return paint_cells(it, cells); },
            [&](auto& it) { return clear_cells(it, cells); },
            [&](Cell c) { return std::find(cells.begin(), cells.end(), c) != cells.end(); });
    }
    Map map({9, 9});
    for (auto wrong : {std::array<double, 3>{1, 1, 0},
                       {1, 1, -1},
                       {NAN, 1, 1},
                       {1, INFINITY, 1},
                       {1, 1, NAN},
                       {1e9, 1, 1},
                       {1, 1, 1e9}})
        CHECK(
            throws<std::invalid_argument>([&] { paint_disc(map, wrong[0], wrong[1], wrong[2]); }));
    for (const std::vector<Point>& wrong : {std::vector<Point>{},
                                            {{0, 0}, {1, 1}},
                                            {{0, 0}, {1, 1}, {2, 2}},
                                            {{0, 0}, {4, 0}, {1, 1}, {0, 4}},
                                            {{0, 0}, {NAN, 0}, {0, 4}},
                                            {{0, 0}, {1e9, 0}, {0, 4}},
                                            {{-9000, -9000}, {16000, -9000}, {16000, 9000}}})
        CHECK(throws<std::invalid_argument>([&] { clear_polygon(map, wrong); }));
    CHECK(map == Map({9, 9}));
}

int main(int count, char** words) {
    const int maps = count > 1 ? std::atoi(words[1]) : 40;
    many_cells(maps);
    refused_cells();
    if (count > 3) pins(words[2], Edge::open), pins(words[3], Edge::wall);
    slopes(maps);
    costs(maps);
    shapes(maps);
    std::printf("%d checks passed\n", tried.load());
}
