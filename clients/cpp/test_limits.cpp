// Tests of what the headers for C++ refuse before the library is asked: numbers of columns and rows
// that no int holds, which would become other cells, and a library of another version. The linker
// wraps `clearmap_version`, so that the library says another one: test_limits is built with
// -Wl,--wrap=clearmap_version.
#include "clearmap_footprint.hpp"
#include "clearmap_signed.hpp"
#include "testing.hpp"

#include <array>

// ---- a library that says another version

static const char* said = nullptr;

extern "C" {
const char* __real_clearmap_version(void);
const char* __wrap_clearmap_version(void) { return said ? said : __real_clearmap_version(); }
}

/// The first map looks at the version, and goes on looking until it is right.
static void versions() {
    const std::string own = CLEARMAP_VERSION, line = own.substr(0, own.rfind('.'));
    for (const std::string& other : {line + "0.1", '1' + own, line, std::string(), "9.9.9" + own}) {
        said = other.c_str();
        const std::string words =
            "libclearmap " + other + " is linked, and the header is of " + own;
        CHECK(throws<std::runtime_error>([] { Map map({1, 1}); }, words));
        CHECK(throws<std::runtime_error>([] { (void)Map::of_pbm("P1 1 1\n1"); }, words));
    }
    const std::string mended = line + ".71";
    said = mended.c_str();
    CHECK(Map({1, 1}).size() == Size(1, 1));
    said = nullptr;
}

// ---- what compiles, and what doesn't

template <class X, class Y>
constexpr bool makes_a_cell = std::is_constructible_v<Cell, X, Y>;
static_assert(makes_a_cell<int, int> && makes_a_cell<std::uint16_t, long> &&
              makes_a_cell<std::size_t, std::int64_t> && makes_a_cell<bool, char>);
static_assert(!makes_a_cell<double, int> && !makes_a_cell<int, float>);
static_assert(!makes_a_cell<Metric, int> && !makes_a_cell<int, int*>);
static_assert(!std::is_constructible_v<Size, double, int>);
static_assert(!std::is_constructible_v<Frame, double, int, double>);
static_assert(!std::is_constructible_v<Client, double>);
static_assert(!std::is_constructible_v<Range, double, int> && Range{65, 255}.high == 255);
static_assert(std::is_trivially_copyable_v<Cell> && std::is_trivially_copyable_v<Frame>);
static_assert(noexcept(Cell{1, 2}) && noexcept(Cell{std::int16_t{1}, std::uint16_t{2}}) &&
              noexcept(std::declval<const Field&>().distance({1, 2})));
static_assert(Cell{3L, 4u}.x == 3 && Size{5ul, 6ll}.height == 6);

/// Whether a reference into a map, or into a field, can be asked for: of a temporary it would
/// dangle.
template <class Owner, class = void>
constexpr bool lends_words = false;
template <class Owner>
constexpr bool lends_words<Owner, std::void_t<decltype(std::declval<Owner>().words())>> = true;
template <class Owner, class = void>
constexpr bool lends_map = false;
template <class Owner>
constexpr bool lends_map<Owner, std::void_t<decltype(std::declval<Owner>().map())>> = true;
static_assert(lends_words<Map&> && lends_words<const Map&> && lends_map<const Field&> &&
              lends_map<Field&> && lends_map<const SignedField&>);
static_assert(!lends_words<Map> && !lends_words<const Map> && !lends_map<Field> &&
              !lends_map<const Field> && !lends_map<SignedField>);

// ---- numbers that no int holds

/// Calls visit(number) for numbers whose last 32 bits are those of cell 3, or whose sign is lost.
template <class Visit>
void each_wrong(Visit visit) {
    visit(std::int64_t{4294967299});
    visit(std::int64_t{-4294967293});
    visit(std::uint64_t{4294967299u});
    visit(std::uint64_t{18446744073709551615u});
    visit(4294967295u);
    visit(std::size_t{1} << 63);
}

/// Whether a call is refused for each of these numbers, by what the number is.
template <class Call>
void refuses(Call call) {
    each_wrong([&](auto number) {
        const std::string said = std::to_string(number) + " is in no map";
        CHECK(throws<std::out_of_range>([&] { call(number); }, said));
    });
}

static void cells() {
    refuses([](auto n) { (void)Cell{n, 0}; });
    refuses([](auto n) { (void)Cell{0, n}; });
    refuses([](auto n) { (void)Path{{0, 0}, {n, 0}}; });
    refuses([](auto n) { (void)Map({n, 3}); });
    refuses([](auto n) { (void)Map({3, n}); });
    refuses([](auto n) { (void)Frame{n, 3, 0.05}; });
    refuses([](auto n) { (void)Frame{3, n, 0.05, 1, 2}; });
    const std::vector<std::uint8_t> bytes(9);
    refuses([&](auto n) { (void)Map::of_bytes(bytes, {n, 3}, {1, 1}, Rows::downwards); });
}

/// The bytes of a range, too.
static void ranges() {
    const std::vector<std::uint8_t> bytes(9, 44);
    refuses([&](auto n) { (void)Map::of_bytes(bytes, {3, 3}, {n, 255}, Rows::downwards); });
    for (int wrong : {-1, 256, 300}) {
        const std::string said = "a byte is 0 to 255, and not " + std::to_string(wrong);
        CHECK(throws<std::invalid_argument>([&] { (void)Range{wrong, 255}; }, said));
        CHECK(throws<std::invalid_argument>([&] { (void)Range{0, wrong}; }, said));
    }
    const int low = 44;
    CHECK(Map::of_bytes(bytes, {3, 3}, {low, 255u}, Rows::upwards).is_obstacle({2, 2}));
}

/// The queries of a map and of a field.
static void queries() {
    Map map({8, 8});
    map.paint(3, 3, 4, 4);
    const Field field(map);
    double clearance = 0;
    refuses([&](auto n) { (void)map.at({n, 3}); });
    refuses([&](auto n) { (void)map.gradient({3, n}); });
    refuses([&](auto n) { (void)map.is_obstacle({n, 3}); });
    refuses([&](auto n) { (void)map.is_valid(n, 3, clearance); });
    refuses([&](auto n) { (void)map.is_valid(3, n, clearance); });
    refuses([&](auto n) { (void)map.rect(n, 0, 4, 4); });
    refuses([&](auto n) { (void)map.rect(0, 0, 4, n); });
    refuses([&](auto n) { (void)map.path({{n, 3}, {3, 3}}); });
    refuses([&](auto n) { (void)map.is_clear(9, {{3, n}}); });
    refuses([&](auto n) { (void)map.clearance({{3, 3}, {n, 3}}); });
    refuses([&](auto n) { (void)field.at({n, 3}); });
    refuses([&](auto n) { (void)field.distance({3, n}); });
    refuses([&](auto n) { (void)SignedField(map).clearance({n, 3}); });
}

/// Each corner of a drawing, after which nothing has changed.
template <class Drawn>
void draws(Drawn& drawn) {
    refuses([&](auto n) { drawn.paint(n, 0, 4, 4); });
    refuses([&](auto n) { drawn.paint(0, n, 4, 4); });
    refuses([&](auto n) { drawn.paint(0, 0, n, 4); });
    refuses([&](auto n) { drawn.clear(0, 0, 4, n); });
    refuses([&](auto n) { drawn.clear(n, n, n, n); });
}

static void drawings() {
    Map map({8, 8});
    map.paint(3, 3, 4, 4);
    const Map before = map;
    Field field(map);
    SignedField signed_field(map);
    draws(map), draws(field), draws(signed_field);
    CHECK(map == before && field.map() == before && signed_field.map() == before);
    CHECK(field.distance({0, 3}) == 9 && signed_field.clearance({3, 3}) == -1);
}

/// The client for sockets sends nothing of it.
static void client() {
    Telling server;
    Client client(server.port);
    Pinned pinned = client.pin();
    double clearance = 0;
    draws(client);
    refuses([&](auto n) { (void)pinned.at({n, 3}); });
    refuses([&](auto n) { (void)pinned.rect(0, 0, n, 4); });
    refuses([&](auto n) { (void)pinned.is_valid(n, 3, clearance); });
    refuses([&](auto n) { (void)Queries().rect(0, n, 4, 4); });
    refuses([&](auto n) { client.stamp({n, 0}, "P1 1 1\n1"); });
    CHECK(server.drawn().empty());
    CHECK(pinned.at({3L, 4u})->distance == 4096 * 3 + 4);
    for (int port : {-1, 65536, 65536 + server.port})
        CHECK(throws<std::invalid_argument>([&] { Client other(port); }, "a port is 0 to 65535"));
}

// ---- what is no number, also where the compiler takes it that there is none (-ffast-math)

/// NaN, which the compiler doesn't know, of both signs and with other bits, and infinity.
static std::vector<double> no_numbers() {
    std::vector<double> found;
    for (const char* word : {"nan", "-nan", "nan(1)", "nan(0x7ffffffffffff)", "inf", "-inf"})
        found.push_back(std::strtod(word, nullptr));
    return found;
}

template <class Call>
static bool is_invalid(Call call) {
    return throws<std::invalid_argument>(call);
}

static void frames_of_no_numbers() {
    const Frame frame{8, 6, 0.5, -1, -1};
    for (double wrong : no_numbers()) {
        CHECK(is_invalid([&] { (void)Frame{8, 6, wrong}; }));
        CHECK(is_invalid([&] { (void)Frame{8, 6, 0.5, wrong, 0}; }));
        CHECK(is_invalid([&] { (void)Frame{8, 6, 0.5, 0, wrong}; }));
        CHECK(is_invalid([&] { (void)frame.clear_distance(wrong); }));
        CHECK(!frame.cell(wrong, 0) && !frame.cell(0, wrong) && !frame.cell(wrong, wrong));
        CHECK(!frame.staircase({{wrong, 0}}) && !frame.staircase({{0, 0}, {0, wrong}}));
        CHECK(detail::bits(wrong) == detail::infinite_bits || frame.free_metres(wrong) == 0);
    }
    for (double wrong : {0.0, -0.0, -0.05}) CHECK(is_invalid([&] { (void)Frame{8, 6, wrong}; }));
    CHECK(is_invalid([&] { (void)frame.clear_distance(-0.001); }));
    CHECK(is_invalid([&] { (void)frame.clear_distance(1e300); }));
    CHECK(frame.clear_distance(-0.0) == 2 && frame.clear_distance(0) == 2);
    CHECK(frame.cell(-1, -1) == Cell(0, 5) && frame.cell(-1 - 1e-12, -1) == Cell(0, 5));
    CHECK(!frame.cell(-1.001, 0) && !frame.cell(0, 2) && frame.cell(2.99, 1.99) == Cell(7, 0));
    CHECK(!frame.cell(1e300, 0) && !frame.cell(0, -1e308));
    const double infinite = std::numeric_limits<double>::infinity();
    CHECK(detail::bits(frame.free_metres(infinite)) == detail::infinite_bits);
    CHECK(frame.free_metres(-infinite) == 0);
}

/// A pose or a point that is no number is no free one.
static void places_of_no_numbers() {
    Map map({8, 6});
    map.paint(3, 3, 4, 4);
    const Frame frame{8, 6, 0.5, -1, -1};
    const Field field(map);
    const SignedField both(map);
    const Footprint robot({{-0.5, -0.5}, {0.5, -0.5}, {0, 0.5}}, 0.5);
    for (double wrong : no_numbers()) {
        CHECK(field.metres(frame, wrong, 0) == 0 && field.metres(frame, 0, wrong) == 0);
        CHECK(field.free_metres(frame, wrong, 0) == 0 && field.free_metres(frame, 0, wrong) == 0);
        CHECK(both.metres(frame, wrong, wrong) == 0);
        for (int k = 0; k < 3; ++k) {
            double pose[3] = {0, 0, 0};
            pose[k] = wrong;
            CHECK(is_invalid([&] { (void)robot.hits(map, pose[0], pose[1], pose[2]); }));
            CHECK(is_invalid([&] { (void)robot.is_clear(field, pose[0], pose[1], pose[2]); }));
            CHECK(is_invalid([&] { (void)robot.hits(map, frame, pose[0], pose[1], pose[2]); }));
        }
        CHECK(is_invalid([&] { Footprint other({{wrong, 0}, {1, 0}, {0, 1}}); }));
        CHECK(is_invalid([&] { Footprint other({{0, 0}, {1, wrong}, {0, 1}}, 0.5); }));
        CHECK(is_invalid([&] { Footprint other({{0, 0}, {1, 0}, {0, 1}}, wrong); }));
    }
    CHECK(field.metres(frame, 0.75, 0.25) == 0 && field.metres(frame, -0.75, 0.25) == 1.5);
    for (Metric metric : {Metric::euclid2, Metric::city, Metric::chess}) {
        const double none = Field(Map({8, 6}), metric).free_metres(frame, 0, 0);
        CHECK(detail::bits(none) == detail::infinite_bits);
    }
    CHECK(robot.hits(map, frame, 0.75, 0.25, 0) && robot.is_clear(map, frame, 2.5, 1.5, 3));
}

/// Numbers of other types that an int holds are the same cells.
static void other_types() {
    enum Side { width = 8, height = 6 };
    Map map({width, height});
    CHECK(map.paint(std::uint8_t{2}, std::size_t{3}, 4l, 5ull) == 4);
    CHECK(map.is_obstacle({'\3', std::int16_t{4}}));
    CHECK(map.size() == Size(8u, 6ull));
    CHECK(map.at({std::int64_t{0}, 3u})->distance == 4);
    CHECK(map.rect(0, 0, width, height)->cell == Cell(2, 3));
    CHECK(throws<std::out_of_range>([&] { (void)map.at({-1l, 0}); }, clearmap_status_text(7)));
    const Frame frame{100ul, std::uint16_t{80}, 0.05};
    CHECK(frame.size() == Size(100, 80));
    CHECK(frame.origin_x == 0 && frame.origin_y == 0);
}

int main() {
    versions();
    cells();
    ranges();
    queries();
    drawings();
    client();
    other_types();
    frames_of_no_numbers();
    places_of_no_numbers();
    std::printf("limits: %d checks\n", tried.load());
}
