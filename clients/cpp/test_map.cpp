// Tests of clearmap_map.hpp: test_map MAPS [OPEN WALLED], how many random maps (with 5 or more
// also the largest map, and more by threads), and the ports of two servers of a blank map of 64 by
// 48 cells, the border of the second a wall. Answers are compared with a search of all obstacles,
// and with the servers' own.
#include "clearmap_footprint.hpp"
#include "clearmap_signed.hpp"
#include "testing.hpp"

#include <array>
#include <random>

// ---- memory that is refused

/// How many requests for memory are granted yet, where there are few.
static std::atomic<long> granted{-1};

[[gnu::noinline]] void* operator new(std::size_t size) {
    if (granted >= 0 && granted-- == 0) {
        granted = 0;
        throw std::bad_alloc();
    }
    if (void* place = std::malloc(size)) return place;
    throw std::bad_alloc();
}
[[gnu::noinline]] void* operator new[](std::size_t size) { return operator new(size); }
[[gnu::noinline]] void operator delete(void* place) noexcept { std::free(place); }
[[gnu::noinline]] void operator delete(void* place, std::size_t) noexcept { std::free(place); }
[[gnu::noinline]] void operator delete[](void* place) noexcept { std::free(place); }
[[gnu::noinline]] void operator delete[](void* place, std::size_t) noexcept { std::free(place); }

/// Makes a call with this many requests granted; whether it was done without bad_alloc.
template <class Call>
static bool done_with(long requests, Call call) {
    granted = requests;
    try {
        call();
        granted = -1;
        return true;
    } catch (const std::bad_alloc&) {
        granted = -1;
        return false;
    }
}

// ---- what compiles, and what doesn't

static_assert(std::is_nothrow_move_constructible_v<Map> && std::is_nothrow_move_assignable_v<Map>);
static_assert(std::is_nothrow_move_constructible_v<Field> && !std::is_copy_constructible_v<Field>);
static_assert(noexcept(std::declval<const Field&>().distance({})) &&
              noexcept(std::declval<const Field&>().obstacle({})) &&
              noexcept(std::declval<const Field&>().clearance({})));

/// Whether a call takes whole numbers, and no others.
template <class Call>
constexpr bool takes_whole(Call) {
    return std::is_invocable_v<Call, Map&, int> && !std::is_invocable_v<Call, Map&, double>;
}
constexpr auto paint = [](auto& map, auto x) -> decltype(map.paint(x, 0, 1, 1)) { return {}; };
constexpr auto clear = [](auto& map, auto x) -> decltype(map.clear(x, 0, 1, 1)) { return {}; };
constexpr auto rect = [](auto& map, auto x) -> decltype(map.rect(x, 0, 1, 1)) { return {}; };
constexpr auto clear_of = [](auto& map, auto d) -> decltype(map.clear_of(d, {})) { return {}; };
static_assert(takes_whole(paint) && takes_whole(clear) && takes_whole(rect));
constexpr auto is_clear = [](auto& map, auto d) -> decltype(map.is_clear(d, {})) { return {}; };
static_assert(takes_whole(clear_of) && takes_whole(is_clear));
static_assert(std::is_same_v<bool, decltype(std::declval<const Map&>().is_clear(1, {}))>);

// ---- the model

static const std::array<Metric, 3> metrics = {Metric::euclid2, Metric::city, Metric::chess};

static std::mt19937 random_numbers(7);
static int below(int count) {
    return std::uniform_int_distribution<int>(0, count - 1)(random_numbers);
}

static std::uint32_t between(Cell a, Cell b, Metric m) {
    int dx = std::abs(a.x - b.x), dy = std::abs(a.y - b.y);
    int found = m == Metric::euclid2 ? dx * dx + dy * dy
                : m == Metric::city  ? dx + dy
                                     : std::max(dx, dy);
    return static_cast<std::uint32_t>(found);
}

/// A map as bytes, 1 for an obstacle.
struct Model {
    Size size;
    Edge edge;
    std::vector<std::uint8_t> cells;

    std::uint8_t& cell(int x, int y) { return cells[static_cast<std::size_t>(y * size.width + x)]; }
    bool obstacle(int x, int y) const {
        return cells[static_cast<std::size_t>(y * size.width + x)] == 1;
    }

    std::vector<Cell> obstacles() const {
        std::vector<Cell> found;
        for (int y = -1; y <= size.height; ++y)
            for (int x = -1; x <= size.width; ++x) {
                bool frame = x < 0 || y < 0 || x == size.width || y == size.height;
                if (frame ? edge == Edge::wall : obstacle(x, y)) found.push_back({x, y});
            }
        return found;
    }

    Map map() const { return Map::of_bytes(cells, size, {1, 1}, Rows::downwards, edge); }

    std::string plain(const char* between_pixels = "") const {
        std::string text = "P1\n# a comment\n" + std::to_string(size.width) + " # another\n" +
                           std::to_string(size.height) + "\n";
        for (std::uint8_t c : cells) text += std::string(between_pixels) + (c ? '1' : '0');
        return text + '\n';
    }

    std::string raw(bool fill) const {
        std::string text =
            "P4 " + std::to_string(size.width) + ' ' + std::to_string(size.height) + '\n';
        for (int y = 0; y < size.height; ++y)
            for (int first = 0; first < size.width; first += 8) {
                int byte = 0;
                for (int x = first; x < first + 8; ++x)
                    byte = 2 * byte + (x < size.width ? obstacle(x, y) : fill);
                text += static_cast<char>(byte);
            }
        return text;
    }
};

static Model random_model(int widest, int highest) {
    Model model{{1 + below(widest), 1 + below(highest)}, below(2) ? Edge::wall : Edge::open, {}};
    int rare = 1 + below(below(2) ? 200 : 20000);
    model.cells.resize(static_cast<std::size_t>(model.size.width * model.size.height));
    for (std::uint8_t& cell : model.cells) cell = below(rare) == 0 && below(9) > 0;
    return model;
}

/// The nearest obstacle by a search of all: of several the one of the least column, of those the
/// one in the fewest rows away, and the upper.
static std::optional<Near> searched(const std::vector<Cell>& obstacles, Cell c, Metric m) {
    auto rank = [&](Cell o) {
        return std::make_tuple(between(c, o, m), o.x, std::abs(c.y - o.y), o.y);
    };
    if (obstacles.empty()) return std::nullopt;
    Cell best = *std::min_element(obstacles.begin(), obstacles.end(),
                                  [&](Cell a, Cell b) { return rank(a) < rank(b); });
    return Near{between(c, best, m), best};
}

/// The first of these cells that is the nearest one, or that is below d.
static std::optional<Tightest> first(const std::vector<Cell>& obstacles,
                                     const std::vector<Cell>& cells, Metric m,
                                     std::optional<std::uint32_t> d = std::nullopt) {
    std::optional<Tightest> best;
    for (Cell c : cells) {
        auto near = searched(obstacles, c, m);
        if (!near || (d && near->distance >= *d)) continue;
        if (!best || near->distance < best->distance)
            best = Tightest{near->distance, c, near->obstacle};
        if (d) break;
    }
    return best;
}

static bool same(const std::optional<Near>& a, const std::optional<Near>& b) {
    return a.has_value() == b.has_value() &&
           (!a || (a->distance == b->distance && a->obstacle == b->obstacle));
}
static bool same(const std::optional<Tightest>& a, const std::optional<Tightest>& b) {
    return a.has_value() == b.has_value() &&
           (!a || (a->distance == b->distance && a->cell == b->cell && a->obstacle == b->obstacle));
}

static double straight(const std::optional<Near>& near) {
    return near ? std::sqrt(static_cast<double>(near->distance))
                : std::numeric_limits<double>::infinity();
}

// ---- questions drawn at random

static Cell random_cell(Size size) { return {below(size.width), below(size.height)}; }

static Path random_path(Size size) {
    Path path = {random_cell(size)};
    for (int i = below(5); i > 0; --i) {
        Cell last = path.back(), next = random_cell(size);
        path.push_back(below(2) ? Cell{next.x, last.y} : Cell{last.x, next.y});
    }
    return path;
}

static std::vector<Cell> cells_of(const Path& path) {
    std::vector<Cell> cells = {path.front()};
    for (Cell to : path)
        while (!(cells.back() == to)) {
            Cell at = cells.back();
            cells.push_back(
                {at.x + (to.x > at.x) - (to.x < at.x), at.y + (to.y > at.y) - (to.y < at.y)});
        }
    return cells;
}

static std::vector<Cell> cells_of(int x0, int y0, int x1, int y1) {
    std::vector<Cell> cells;
    for (int y = y0; y < y1; ++y)
        for (int x = x0; x < x1; ++x) cells.push_back({x, y});
    return cells;
}

/// Some of each query of a map against the model.
static void ask_some(const Map& map, const Model& model, const std::vector<Cell>& obstacles) {
    Metric m = metrics[static_cast<std::size_t>(below(3))];
    Cell c = random_cell(model.size);
    CHECK(same(map.at(c, m), searched(obstacles, c, m)));
    CHECK(map.is_obstacle(c) == model.obstacle(c.x, c.y));
    double cells = -1;
    double wanted = straight(searched(obstacles, c, Metric::euclid2));
    CHECK(map.is_valid(c.x, c.y, cells) == (wanted > 0) && cells == wanted);

    int x1 = c.x + 1 + below(std::min(9, model.size.width - c.x));
    int y1 = c.y + 1 + below(std::min(9, model.size.height - c.y));
    CHECK(same(map.rect(c.x, c.y, x1, y1, m), first(obstacles, cells_of(c.x, c.y, x1, y1), m)));

    Path path = random_path(model.size);
    std::vector<Cell> along = cells_of(path);
    CHECK(same(map.path(path, m), first(obstacles, along, m)));
    auto d = static_cast<std::uint32_t>(below(30));
    CHECK(same(map.clear_of(d, path, m), first(obstacles, along, m, d)));
    CHECK(map.is_clear(d, path, m) == !first(obstacles, along, m, d));
    auto least = first(obstacles, along, Metric::euclid2);
    CHECK(map.clearance(path) ==
          straight(least ? std::optional<Near>{{least->distance, {}}} : std::nullopt));
}

// ---- the tests

static void random_maps(int maps) {
    for (int i = 0; i < maps; ++i) {
        Model model = i % 2 ? random_model(40, 30) : random_model(150, 12);
        Map map = model.map();
        std::vector<Cell> obstacles = model.obstacles();
        Field field(map, metrics[static_cast<std::size_t>(i % 3)], static_cast<unsigned>(below(6)));
        CHECK(map.size() == model.size && field.size() == model.size);
        for (Cell c : cells_of(0, 0, model.size.width, model.size.height)) {
            auto near = searched(obstacles, c, field.metric());
            CHECK(same(map.at(c, field.metric()), near) && same(field.at(c), near));
            CHECK(field.distance(c) == (near ? near->distance : CLEARMAP_NO_OBSTACLE));
            CHECK(field.obstacle(c) == (near ? near->obstacle : Cell{-2, -2}));
            CHECK(field.clearance(c) ==
                  (field.metric() == Metric::euclid2 || !near ? straight(near) : near->distance));
        }
        for (int k = 0; k < 30; ++k) ask_some(map, model, obstacles);
    }
}

/// Each way to make a map makes the same one.
static void made(int maps) {
    for (int i = 0; i < maps; ++i) {
        Model model = random_model(200, 200);
        Map map = model.map();
        const Size size = model.size;
        CHECK(map == Map::of_pbm(model.plain(), model.edge));
        CHECK(map == Map::of_pbm(model.plain(" \t#10\n"), model.edge));
        CHECK(map == Map::of_pbm(model.raw(false), model.edge));
        CHECK(map == Map::of_pbm(model.raw(true) + "P4", model.edge));

        // In a larger array, from a corner of it, its rows the other way round.
        std::size_t stride = static_cast<std::size_t>(size.width + below(70));
        std::vector<signed char> larger(stride * static_cast<std::size_t>(size.height), 100);
        for (int y = 0; y < size.height; ++y)
            for (int x = 0; x < size.width; ++x)
                larger[static_cast<std::size_t>(size.height - 1 - y) * stride +
                       static_cast<std::size_t>(x)] = model.obstacle(x, y) ? -1 : 64;
        Map turned = Map::of_bytes(larger.data(), larger.size(), stride, size, {65, 255},
                                   Rows::upwards, model.edge);
        CHECK(turned == map && turned.bits().blank_bands == map.bits().blank_bands);

        Map painted(size, model.edge);
        for (int y = 0; y < size.height; ++y)
            for (int x = 0; x < size.width; ++x)
                if (model.obstacle(x, y)) CHECK(painted.paint(x, y, x + 1, y + 1) == 1);
        CHECK(painted == map && painted.bits().blank_bands == map.bits().blank_bands);
        model.edge = model.edge == Edge::open ? Edge::wall : Edge::open;
        const Map other = model.map();
        CHECK(map != other && map.words() == other.words());
    }
    const std::uint8_t grid[6] = {0, 65, 100, 101, 64, 255};
    Map bounds = Map::of_bytes(grid, {3, 2}, {65, 100}, Rows::downwards);
    for (Cell c : cells_of(0, 0, 3, 2))
        CHECK(bounds.is_obstacle(c) == (c == Cell{1, 0} || c == Cell{2, 0}));
}

/// Paints and clears against a model, the blank bands too.
static void drawn(int maps) {
    for (int i = 0; i < maps; ++i) {
        Model model = random_model(150, 300);
        Map map = model.map();
        for (int k = 0; k < 30; ++k) {
            Cell a = random_cell(model.size);
            int x1 = a.x + 1 + below(model.size.width - a.x);
            int y1 = a.y + 1 + below(model.size.height - a.y);
            bool paint = below(3) == 0;
            std::uint32_t changed = 0;
            for (Cell c : cells_of(a.x, a.y, x1, y1)) {
                changed += model.obstacle(c.x, c.y) != paint;
                model.cell(c.x, c.y) = paint;
            }
            CHECK((paint ? map.paint(a.x, a.y, x1, y1) : map.clear(a.x, a.y, x1, y1)) == changed);
            CHECK(map == model.map());
            CHECK(map.bits().blank_bands == model.map().bits().blank_bands);
        }
        map.clear(0, 0, model.size.width, model.size.height);
        CHECK(map == Map(model.size, model.edge));
        CHECK(map.bits().blank_bands == ~std::uint64_t{0});
        CHECK(map.at({0, 0}).has_value() == (model.edge == Edge::wall));
    }
}

/// A path of over 1000 points is asked in pieces, and no cell between two is left out.
/// The bits of a map are the same map with the marks of its tiles, and where its blank bands are
/// left out.
static void bands_left_out(int maps) {
    for (int i = 0; i < maps; ++i) {
        Model model = random_model(150, 300);
        const Map map = model.map();
        clearmap_bits left_out{};
        left_out.width = map.bits().width;
        left_out.height = map.bits().height;
        left_out.stride = map.bits().stride;
        const auto cells = left_out.width * std::size_t{left_out.height};
        std::vector<std::uint8_t> told(cells), wanted(cells);
        auto unpacked = [&](const clearmap_bits& bits, std::vector<std::uint8_t>& into) {
            CHECK(clearmap_unpack(map.words().data(), map.words().size(), &bits, 0, 1, into.data(),
                                  cells) == CLEARMAP_DONE);
        };
        unpacked(left_out, wanted);
        for (const clearmap_bits& bits : {map.bits(), map.marked_bits()}) {
            unpacked(bits, told);
            CHECK(told == wanted);
        }
        CHECK(map.bits().tiles == 0 && map.marked_bits().tiles != 0);
    }
    const Map emptied = [] {
        Map map({3, 2});
        Map taken = std::move(map);
        return map;  // NOLINT(bugprone-use-after-move): it has no cells now
    }();
    CHECK(emptied.marked_bits().tiles == 0);
}

static void long_paths() {
    Map map({6, 4});
    map.paint(2, 1, 3, 2);
    Path path;
    for (int i = 0; i < 2500; ++i) path.push_back({5, i % 2});
    CHECK(map.clearance(path) == 3.0);
    for (std::size_t length : {999u, 1000u, 1001u, 1002u, 1998u, 1999u, 2000u}) {
        Path joint(path.begin(), path.begin() + static_cast<std::ptrdiff_t>(length));
        int row = joint.back().y;
        joint.push_back({0, row});
        CHECK(map.clearance(joint) == (row == 1 ? 0.0 : 1.0));
        joint.push_back({1, 3});
        CHECK(throws<std::invalid_argument>([&] { map.clearance(joint); },
                                            clearmap_status_text(CLEARMAP_CROOKED)));
    }
}

/// Eight threads ask one map and one field, each `times` times.
static void shared(int times) {
    Model model{{300, 200}, Edge::open, std::vector<std::uint8_t>(60000)};
    for (int i = 0; i < 50; ++i) model.cells[static_cast<std::size_t>(below(60000))] = 1;
    const Map map = model.map();
    const Field field(map, Metric::euclid2, 8);
    std::vector<Cell> obstacles = model.obstacles();
    std::vector<std::thread> threads;
    for (unsigned t = 0; t < 8; ++t)
        threads.emplace_back([&, t] {
            std::mt19937 own(t);
            for (int k = 0; k < times; ++k) {
                Cell c{static_cast<int>(own() % 300), static_cast<int>(own() % 200)};
                Cell to{static_cast<int>(own() % 300), c.y};
                auto near = field.at(c);
                CHECK(same(map.at(c), near));
                CHECK(k % 100 != 0 || same(near, searched(obstacles, c, Metric::euclid2)));
                auto least = map.path({c, to});
                CHECK(least->distance == field.distance(least->cell));
                CHECK(!map.clear_of(least->distance, {c, to}));
                CHECK(same(map.rect(c.x, c.y, c.x + 1, c.y + 1), map.path({c})));
            }
        });
    for (std::thread& thread : threads) thread.join();
}

template <class Kind, class Call>
static bool refused_as(std::uint32_t status, Call call) {
    return throws<Kind>(call, clearmap_status_text(status));
}

static void invalid_queries() {
    using Outside = std::out_of_range;
    using Invalid = std::invalid_argument;
    Map map({70, 5});
    map.paint(1, 1, 2, 2);
    const Map before = map;
    for (Cell c : {Cell{-1, 0}, Cell{0, -1}, Cell{70, 0}, Cell{0, 5}, Cell{65536, 0},
                   Cell{0, 65536}, Cell{-65536, 0}, Cell{std::numeric_limits<int>::min(), 0}}) {
        CHECK(refused_as<Outside>(CLEARMAP_OUTSIDE, [&] { map.at(c); }));
        CHECK(refused_as<Outside>(CLEARMAP_OUTSIDE, [&] { map.is_obstacle(c); }));
        CHECK(refused_as<Outside>(CLEARMAP_OUTSIDE, [&] { map.path({{0, 0}, c}); }));
        CHECK(refused_as<Outside>(CLEARMAP_OUTSIDE, [&] { (void)map.clear_of(1, {c}); }));
        CHECK(refused_as<Outside>(CLEARMAP_OUTSIDE, [&] { Field(map).at(c); }));
        double cells = -1;
        CHECK(!map.is_valid(c.x, c.y, cells) && cells == 0);
    }
    const int rects[][4] = {{0, 0, 0, 1},  {0, 0, 1, 0},  {0, 0, 71, 1},  {0, 0, 1, 6},
                            {2, 0, 1, 1},  {0, 2, 1, 1},  {-1, 0, 1, 1},  {0, -1, 1, 1},
                            {0, 0, -1, 1}, {0, 0, 1, -1}, {70, 4, 71, 5}, {2, 0, 2, 1},
                            {0, 2, 1, 2}};
    for (auto& r : rects) {
        CHECK(refused_as<Outside>(CLEARMAP_OUTSIDE, [&] { map.rect(r[0], r[1], r[2], r[3]); }));
        CHECK(refused_as<Outside>(CLEARMAP_OUTSIDE, [&] { map.paint(r[0], r[1], r[2], r[3]); }));
        CHECK(refused_as<Outside>(CLEARMAP_OUTSIDE, [&] { map.clear(r[0], r[1], r[2], r[3]); }));
    }
    CHECK(refused_as<Invalid>(CLEARMAP_POINTS, [&] { map.path({}); }));
    CHECK(refused_as<Invalid>(CLEARMAP_POINTS, [&] { map.clearance({}); }));
    CHECK(refused_as<Invalid>(CLEARMAP_POINTS, [&] { map.path(Path(1001, {1, 1})); }));
    CHECK(map.path(Path(1000, {1, 1}))->distance == 0);
    CHECK(refused_as<Invalid>(CLEARMAP_CROOKED, [&] { (void)map.clear_of(1, {{0, 0}, {1, 1}}); }));
    auto none = static_cast<Metric>(3);
    CHECK(refused_as<Invalid>(CLEARMAP_METRIC, [&] { map.at({0, 0}, none); }));
    CHECK(refused_as<Invalid>(CLEARMAP_METRIC, [&] { map.path(Path(1001), none); }));
    CHECK(refused_as<Invalid>(CLEARMAP_METRIC, [&] { Field(map, none, 3); }));
    CHECK(map == before);
}

static Map of_cells(const std::vector<char>& cells, Size size, Range obstacles) {
    return Map::of_bytes(cells, size, obstacles, Rows::downwards);
}

static void invalid_maps() {
    using Invalid = std::invalid_argument;
    std::vector<char> cells(12);
    for (Size size : {Size{0, 1}, Size{1, 0}, Size{-1, 1}, Size{4097, 1}, Size{1, 4097}}) {
        CHECK(refused_as<Invalid>(CLEARMAP_SIZE, [&] { Map map(size); }));
        CHECK(refused_as<Invalid>(CLEARMAP_SIZE, [&] { of_cells(cells, size, {1, 1}); }));
    }
    CHECK(refused_as<Invalid>(CLEARMAP_EDGE, [] { Map map({1, 1}, static_cast<Edge>(2)); }));
    CHECK(refused_as<Invalid>(CLEARMAP_LENGTH, [&] { of_cells(cells, {4, 4}, {1, 1}); }));
    CHECK(refused_as<Invalid>(CLEARMAP_LENGTH, [] { of_cells({}, {4, 4}, {1, 1}); }));
    CHECK(throws<Invalid>([&] { of_cells(cells, {4, 2}, {1, 1}); }, "goes on after its last"));
    CHECK(refused_as<Invalid>(CLEARMAP_RANGE, [&] { of_cells(cells, {4, 3}, {2, 1}); }));
    Range left_out{};
    left_out.low = 1;
    CHECK(refused_as<Invalid>(CLEARMAP_RANGE, [&] { of_cells(cells, {4, 3}, left_out); }));
    CHECK(refused_as<Invalid>(CLEARMAP_STRIDE, [&] {
        Map::of_bytes(cells.data(), 12, 3, {4, 3}, {1, 1}, Rows::downwards);
    }));
    CHECK(refused_as<Invalid>(CLEARMAP_LENGTH, [&] {
        Map::of_bytes(cells.data(), 12, 5, {4, 3}, {1, 1}, Rows::downwards);
    }));
}

static void moved() {
    Map map({100, 70});
    map.paint(99, 69, 100, 70);
    Map taken = std::move(map);
    CHECK(taken.at({99, 0})->distance == 69 * 69 && map.size() == (Size{0, 0}));
    CHECK(refused_as<std::invalid_argument>(CLEARMAP_SIZE, [&] { map.at({0, 0}); }));
    CHECK(refused_as<std::invalid_argument>(CLEARMAP_SIZE, [&] { Field field(map); }));
    CHECK(refused_as<std::out_of_range>(CLEARMAP_OUTSIDE, [&] { map.paint(0, 0, 1, 1); }));
    map = taken;
    CHECK(map == taken && map.path({{0, 69}, {98, 69}})->cell == (Cell{98, 69}));

    Field field(map);
    Field other = std::move(field);
    CHECK(other.at(98, 69)->distance == 1 && field.size() == (Size{0, 0}));
    CHECK(refused_as<std::out_of_range>(CLEARMAP_OUTSIDE, [&] { field.at(0, 0); }));
    Frame frame{100, 70, 0.5, -1, -2};
    CHECK(other.metres(frame, 48.75, -1.75) == 0.0);  // the obstacle, at the lower right
    CHECK(other.metres(frame, -0.75, -1.75) == 99 * 0.5);
    CHECK(other.metres(frame, -1.25, -1.75) == 0.0);  // outside
    for (const Frame& wrong : {Frame{101, 70, 0.5, -1, -2}, Frame{100, 700, 0.5, -1, -2}})
        CHECK(throws<std::invalid_argument>([&] { other.metres(wrong, 0, 0); }, "another size"));
}

// ---- in metres

/// A costmap as ROS has it: row 0 of its bytes is the lowest in the world.
static void costmaps(int maps) {
    for (int i = 0; i < maps; ++i) {
        const Model model = random_model(40, 30);
        const Frame frame{model.size.width, model.size.height, 0.5, -3, 2};
        const Map map = Map::of_costmap(model.cells, frame, {1, 1}, model.edge);
        const std::uint8_t* bytes = model.cells.data();
        CHECK(map == Map::of_costmap(bytes, model.cells.size(), frame, {1, 1}, model.edge));
        CHECK(map == Map::of_bytes(model.cells, model.size, {1, 1}, Rows::upwards, model.edge));
        for (Cell c : cells_of(0, 0, model.size.width, model.size.height)) {
            const double x = -3 + 0.5 * (c.x + 0.5), y = 2 + 0.5 * (c.y + 0.5);
            CHECK(map.is_obstacle(*frame.cell(x, y)) == model.obstacle(c.x, c.y));
        }
        for (std::size_t wrong : {model.cells.size() - 1, model.cells.size() + 1})
            CHECK(throws<std::invalid_argument>(
                [&] { Map::of_costmap(bytes, wrong, frame, {1, 1}); }, "number of cells"));
    }
    const std::vector<signed char> grid = {0, 100, 0, 0, -1, 0};
    const Frame frame{2, 3, 1};
    CHECK(Map::of_costmap(grid, frame, {65, 255}).is_obstacle({1, 2}));
    CHECK(Map::of_costmap(grid, frame, {65, 255}).is_obstacle({0, 0}));
    CHECK(throws<std::invalid_argument>(
        [&] { Map::of_costmap(grid, Frame{2, 2, 1}, {65, 255}); }, "goes on after its last"));
}

/// Whether each call that takes a frame refuses a map for its rows.
static bool is_refused(const Map& map, const Frame& frame) {
    const std::string words = "row 0 of the map is the lowest";
    auto is = [&](auto call) { return throws<std::invalid_argument>(call, words); };
    const Footprint robot({{-1, -1}, {1, -1}, {0, 1}}, frame.resolution);
    const Field field(map), city(map, Metric::city);
    const SignedField both(map);
    return is([&] { field.metres(frame, 1, 1); }) && is([&] { field.free_metres(frame, 1, 1); }) &&
           is([&] { city.metres(frame, 1, 1); }) && is([&] { both.metres(frame, 1, 1); }) &&
           is([&] { (void)robot.hits(map, frame, 1, 1, 0); }) &&
           is([&] { (void)robot.is_clear(field, frame, 1, 1, 0); });
}

/// A map whose rows stay as ROS has them is that of its cells, but of no frame.
static void upside_down() {
    Model model{{4, 6}, Edge::open, std::vector<std::uint8_t>(24)};
    model.cell(1, 0) = 1;  // at the lower left of the world
    const Frame frame{4, 6, 1};
    const Map kept = Map::of_bytes(model.cells, model.size, {1, 1}, Rows::upwards_kept);
    CHECK(kept.is_obstacle({1, 0}) && kept.is_upside_down() && is_refused(kept, frame));
    const Map top_first = model.map();
    CHECK(kept != top_first && kept.words() == top_first.words());
    CHECK(is_refused(Map(kept), frame) && is_refused(kept.inverse(), frame));
    Map turned = Map::of_costmap(model.cells, frame, {1, 1});
    CHECK(!turned.is_upside_down() && Field(turned).metres(frame, 1.5, 0.5) == 0);
    for (const Map& next : {kept, kept.inverse()}) {  // few cells change, and most
        Field field(turned);
        field.update(next);
        CHECK(field.map().is_upside_down() && throws<std::invalid_argument>([&] {
                  field.metres(frame, 1, 1);
              }, "the lowest"));
        field.update(turned);
        CHECK(field.free_metres(frame, 3.5, 4.5) > 0);
    }
    turned = kept;
    CHECK(is_refused(turned, frame));
}

/// The distance in cells of a point, in cells from the upper left, from the nearest obstacle.
static double true_distance(const std::vector<Cell>& obstacles, double x, double y) {
    double least = std::numeric_limits<double>::infinity();
    for (Cell c : obstacles) {
        const double dx = std::max({c.x - x, x - c.x - 1, 0.0});
        const double dy = std::max({c.y - y, y - c.y - 1, 0.0});
        least = std::min(least, std::sqrt(dx * dx + dy * dy));
    }
    return least;
}

/// No point is nearer to an obstacle than `free_metres` says, by any metric, where `metres` is more
/// for most; and some point of the cells can be about as near.
static void free_metres(int maps) {
    long above = 0, points = 0;
    for (int i = 0; i < maps; ++i) {
        const Model model = random_model(40, 30);
        const double scale = std::array<double, 3>{0.05, 1, 0.1}[static_cast<std::size_t>(i % 3)];
        const Frame frame{model.size.width, model.size.height, scale, -1.3, 0.7};
        const std::vector<Cell> obstacles = model.obstacles();
        const Field field(model.map(), metrics[static_cast<std::size_t>(below(3))]);
        for (int k = 0; k < 50; ++k) {
            const double u = below(40000) / 1000.0, v = below(30000) / 1000.0;
            const double x = -1.3 + scale * u, y = 0.7 + scale * v;
            const double free = field.free_metres(frame, x, y);
            const auto cell = frame.cell(x, y);
            if (!cell) {
                CHECK(free == 0 && field.metres(frame, x, y) == 0);
                continue;
            }
            const double real = scale * true_distance(obstacles, u, model.size.height - v);
            CHECK(free <= real + 1e-9 || real == free);
            above += field.metres(frame, x, y) > real + 1e-9;
            ++points;
            if (field.metric() != Metric::euclid2 || obstacles.empty()) continue;
            const double least = scale * (field.clearance(*cell) - std::sqrt(2.0));
            CHECK(free <= std::max(least, 0.0) && free >= least - 1e-10);
        }
    }
    CHECK(maps < 20 || 2 * above > points);
    const Frame frame{5000, 5000, 0.05};
    CHECK(frame.free_metres(0) == 0 && frame.free_metres(1) == 0 && frame.free_metres(-3) == 0);
    CHECK(frame.free_metres(std::sqrt(2.0)) == 0 && frame.free_metres(1.5) > 0);
    for (int square = 3; square < 5000; ++square) {  // against 64 bits of mantissa
        const long double wanted = (std::sqrt(static_cast<long double>(square)) -
                                    std::sqrt(2.0L)) / 20;
        const double told = frame.free_metres(std::sqrt(static_cast<double>(square)));
        CHECK(told <= wanted && told > wanted - 1e-14L);
    }
}

/// A distance of another integer isn't cut to 32 bits: 2^32 would be 0, by which each path is
/// clear, and -1 more than any distance.
static void distances_of_64_bits() {
    Map map({3, 1});
    map.paint(2, 0, 3, 1);
    const Path path = {{0, 0}, {1, 0}};
    CHECK(map.is_clear(std::int64_t{1}, path) && !map.is_clear(std::uint64_t{2}, path));
    CHECK(map.clear_of(std::size_t{4294967295}, path)->cell == (Cell{0, 0}));
    CHECK(map.is_clear(true, path) && map.is_clear(std::uint8_t{1}, path));
    auto refused = [&](auto d, const std::string& text) {
        return throws<std::invalid_argument>([&] { (void)map.clear_of(d, path); }, text) &&
               throws<std::invalid_argument>([&] { (void)map.is_clear(d, path); }, text);
    };
    CHECK(refused(std::uint64_t{1} << 32, "0 to 4294967295, and not 4294967296"));
    CHECK(refused(std::uint64_t{1} << 32 | 1, "and not 4294967297"));
    CHECK(refused(std::int64_t{-1}, "and not -1") && refused(-1, "and not -1"));
    CHECK(refused(short{-3}, "and not -3"));
}

/// Queries ask for no memory, and whatever else finds none throws; a thread that can't be started
/// does its rows on the caller's.
static void without_memory() {
    const Map map = of_cells(std::vector<char>(20000, 1), {200, 100}, {0, 0});
    const Path path = {{0, 0}, {199, 0}, {199, 99}};
    CHECK(done_with(0, [&] {
        map.at({0, 0});
        map.rect(0, 0, 200, 100);
        map.path(path);
        (void)map.clear_of(9, path);
        map.clearance(path);
    }));
    CHECK(!done_with(0, [&] { Map other(map); }) && !done_with(0, [] { Map other({1, 1}); }));
    int refusals = 0;
    while (!done_with(refusals, [&] { Field field(map, Metric::city, 4); })) ++refusals;
    CHECK(refusals == 4);
    granted = 4;
    Field field(map, Metric::city, 4);
    granted = -1;
    for (Cell c : cells_of(0, 0, 200, 100)) CHECK(!field.at(c));
}

static void largest() {
    Map map({4096, 4096});
    CHECK(map.paint(0, 0, 1, 1) == 1);
    CHECK(map.at({4095, 4095})->distance == 2u * 4095 * 4095);
    CHECK(map.path({{4095, 4095}, {0, 4095}, {0, 1}})->cell == (Cell{0, 1}));
    Field field(map, Metric::euclid2, 3);
    CHECK(field.distance({4095, 4095}) == 2u * 4095 * 4095);
    CHECK(field.distance({0, 4095}) == 4095u * 4095 && field.distance({4095, 0}) == 4095u * 4095);
    CHECK(map.paint(4095, 4095, 4096, 4096) == 1 && map.clear(0, 0, 4095, 4096) == 1);
    CHECK(map.at({0, 0})->obstacle == (Cell{4095, 4095}));
    CHECK(map.bits().blank_bands == ~(std::uint64_t{1} << 63));
}

// ---- images that aren't

static void faults() {
    const std::pair<const char*, const char*> images[] = {
        {"", "Truncated"},
        {"P", "Truncated"},
        {"X", "BadMagic"},
        {"P2 1 1 0", "BadMagic"},
        {"P1", "Truncated"},
        {"P1#", "BadComment"},
        {"P11 1 1", "MissingSpace"},
        {"P1 # ", "Truncated"},
        {"P1 x", "BadNumber"},
        {"P1 0", "ZeroSize"},
        {"P1 0#", "ZeroSize"},
        {"P1 4097", "TooLarge"},
        {"P1 1", "Truncated"},
        {"P1 1 1", "Truncated"},
        {"P1 1 1 ", "Truncated"},
        {"P1 1 1#", "BadComment"},
        {"P1 1 1 2", "BadPixel"},
        {"P1 2 1 0#\n1", "BadComment"},
        {"P1 1 1 10", "JunkNotSpaced"},
        {"P1 1 1 1#", "JunkNotSpaced"},
        {"P4 9 1 0", "Truncated"},
        {"P4 1 1#", "BadComment"},
        {"P1 1 1\v1", "MissingSpace"},
        {"P1 99999999999 1", "TooLarge"},
    };
    for (auto& [image, fault] : images) {
        std::string_view text = image;
        CHECK(throws<std::invalid_argument>([&] { Map::of_pbm(text); },
                                            std::string("BadImage ") + fault));
    }
}

// ---- a server's maps and faults

static const Size served_size = {64, 48};

static Client client_of(std::uint16_t port) {
    return Client(port, {served_size, std::chrono::seconds(10), FullLog::checkpointed});
}

/// A version in process answers as the pin of it does.
static void served(std::uint16_t port, Edge edge, int maps) {
    Client client = client_of(port);
    for (int i = 0; i < maps; ++i) {
        Model model{served_size, edge, std::vector<std::uint8_t>(64 * 48)};
        int rare = 1 + below(1000);
        for (std::uint8_t& cell : model.cells) cell = i > 0 && below(rare) == 0;
        client.stamp({0, 0}, model.raw(true));
        client.publish();
        Pinned pinned = client.pin();
        const Map map = map_of(pinned, edge);
        CHECK(map == model.map());
        for (int k = 0; k < 30; ++k) {
            Metric m = metrics[static_cast<std::size_t>(k % 3)];
            Cell c = random_cell(served_size), to = random_cell({64 - c.x, 48 - c.y});
            Path path = random_path(served_size);
            auto d = static_cast<std::uint32_t>(below(40));
            CHECK(same(map.at(c, m), pinned.at(c, m)));
            CHECK(same(map.rect(c.x, c.y, c.x + to.x + 1, c.y + to.y + 1, m),
                       pinned.rect(c.x, c.y, c.x + to.x + 1, c.y + to.y + 1, m)));
            CHECK(same(map.path(path, m), pinned.path(path, m)));
            CHECK(same(map.clear_of(d, path, m), pinned.clear_of(d, path, m)));
            CHECK(map.clearance(path) == pinned.clearance(path));
            double ours = -1, theirs = -1;
            CHECK(map.is_valid(c.x - 1, c.y, ours) == pinned.is_valid(c.x - 1, c.y, theirs) &&
                  ours == theirs);
        }
        pinned.unpin();
        client.collect();
    }
}

/// An image with some bytes replaced, put in or taken out.
static std::string damaged(std::string image) {
    static const std::string bytes = "01# \n\t\rP49x\v";
    for (int k = below(4); k > 0; --k) {
        auto at = static_cast<std::size_t>(below(static_cast<int>(image.size())));
        char byte = bytes[static_cast<std::size_t>(below(static_cast<int>(bytes.size())))];
        switch (below(4)) {
            case 0: image.insert(at, 1, byte); break;
            case 1: image.erase(at, 1 + static_cast<std::size_t>(below(3))); break;
            default: image[at] = byte;
        }
        if (image.empty()) image = "P";
    }
    return image;
}

/// A damaged image is read as the server reads it, or has the fault that it finds there.
static void same_faults(std::uint16_t port, int images) {
    Client client = client_of(port);
    for (int i = 0; i < images; ++i) {
        Model model = random_model(20, 5);
        std::string image = damaged(i % 2 ? model.raw(true) : model.plain(i % 4 ? "" : " "));
        std::optional<Map> map;
        std::string ours, theirs;
        try {
            map = Map::of_pbm(image);
        } catch (const std::invalid_argument& fault) {
            ours = fault.what();
        }
        try {
            client.stamp({0, 0}, image);
        } catch (const Refused& refused) {
            if (refused.number == OutOfRange) continue;  // it is larger than the map
            theirs = refused.name + ' ' + refused.fault;
        }
        CHECK(ours == theirs);
        if (!map || i % 3 != 0) continue;
        client.publish();
        Pinned pinned = client.pin();
        const Map whole = map_of(pinned, Edge::open);
        for (Cell c : cells_of(0, 0, map->size().width, map->size().height))
            CHECK(map->is_obstacle(c) == whole.is_obstacle(c));
        pinned.unpin();
        client.collect();
    }
}

int main(int count, char** words) {
    int maps = count > 1 ? std::stoi(words[1]) : 40;
    random_maps(maps);
    made(maps);
    drawn(maps);
    bands_left_out(maps);
    long_paths();
    shared(maps < 5 ? 100 : 2000);
    invalid_queries();
    invalid_maps();
    moved();
    costmaps(maps);
    upside_down();
    free_metres(10 * maps);
    distances_of_64_bits();
    without_memory();
    if (maps >= 5) largest();
    faults();
    for (int i = 2; i < count; ++i) {
        auto port = static_cast<std::uint16_t>(std::stoi(words[i]));
        served(port, i == 2 ? Edge::open : Edge::wall, maps);
        same_faults(port, 20 * maps);
    }
    std::printf("tests of clearmap_map.hpp: %d, all good\n", tried.load());
}
