// Tests of a field that follows its map (clearmap_field.hpp): test_field MAPS, how many random
// maps; with 5 or more also the largest map. After each change all cells are compared with those of
// a rebuilt field, which test_map.cpp compares with a search of all obstacles. Needs the linker's
// --wrap=malloc.
#include "drawing.hpp"
#include "testing.hpp"

// ---- memory that is refused

/// How many requests for memory are granted before one is refused: this program's own, and those of
/// the library. A negative number refuses none.
static std::atomic<long> granted{-1};
static bool all_after = false;
static std::atomic<int> refusals{0};

extern "C" void* __real_malloc(std::size_t size);
extern "C" void* __wrap_malloc(std::size_t size) {
    if (granted < 0 || granted-- != 0) return __real_malloc(size);
    granted = all_after ? 0 : -1;
    ++refusals;
    return nullptr;
}

[[gnu::noinline]] void* operator new(std::size_t size) {
    if (void* place = std::malloc(size)) return place;
    throw std::bad_alloc();
}
[[gnu::noinline]] void* operator new[](std::size_t size) { return operator new(size); }
[[gnu::noinline]] void operator delete(void* place) noexcept { std::free(place); }
[[gnu::noinline]] void operator delete(void* place, std::size_t) noexcept { std::free(place); }
[[gnu::noinline]] void operator delete[](void* place) noexcept { std::free(place); }
[[gnu::noinline]] void operator delete[](void* place, std::size_t) noexcept { std::free(place); }

// ---- what compiles, and what doesn't

constexpr auto paint = [](auto& field, auto x) -> decltype(field.paint(x, 0, 1, 1)) { return {}; };
constexpr auto clear = [](auto& field, auto x) -> decltype(field.clear(x, 0, 1, 1)) { return {}; };
template <class Call>
constexpr bool takes_whole(Call) {
    return std::is_invocable_v<Call, Field&, int> && !std::is_invocable_v<Call, Field&, double>;
}
static_assert(takes_whole(paint) && takes_whole(clear));

// ---- the tests

/// Paints and clears, each followed at once.
static void drawn(int maps, int widest, int highest, int most) {
    for (int i = 0; i < maps; ++i) {
        Map map = random_map(widest, highest);
        Field field(map, random_metric(), 1);
        for (int k = 0; k < 8; ++k) {
            const Box box = random_box(map.size(), most);
            bool obstacles = below(5) < 2;
            std::uint32_t changed = draw(map, box, obstacles);
            CHECK(draw(field, box, obstacles) == changed);
            CHECK(shows(field, map));
        }
        field.clear(0, 0, map.size().width, map.size().height);
        CHECK(shows(field, Map(map.size(), map.edge())));
    }
}

/// Another map: with some boxes drawn, with other cells all over, or of any size.
static Map other_map(Map map) {
    switch (below(8)) {
        case 0: return random_map(60, 40);
        case 1:
            for (int k = below(40); k > 0; --k) draw(map, random_box(map.size(), 1), below(2));
            return map;
        default:
            for (int k = below(6); k > 0; --k) draw(map, random_box(map.size(), 9), below(2));
            return map;
    }
}

/// A field stays as it is when its map is changed, and follows when it is told to.
static void updated(int maps) {
    for (int i = 0; i < maps; ++i) {
        Map map = random_map(300, 100);
        Field field(map, random_metric(), 1);
        for (int k = 0; k < 6; ++k) {
            const Map before = map;
            map = other_map(map);
            CHECK(field.map() == before);
            if (k == 0) CHECK(shows(field, before));
            field.update(map);
            CHECK(shows(field, map));
        }
        field.update(Map(map.size(), map.edge() == Edge::open ? Edge::wall : Edge::open));
        CHECK(field.map().edge() != map.edge() && shows(field, field.map()));
    }
}

/// One obstacle between others a long way off: many cells lose it, and windows grow.
static void far_obstacles(int maps) {
    for (int i = 0; i < maps; ++i) {
        Map map({150 + below(300), 150 + below(300)}, i % 2 ? Edge::wall : Edge::open);
        const Size size = map.size();
        for (int k = below(30); k > 0; --k) draw(map, random_box(size, 2), true);
        Field field(map, static_cast<Metric>(i % 3), 1);
        for (int k = 0; k < 3; ++k) {
            const Box box = random_box(size, 8);
            draw(field, box, true);
            draw(map, box, true);
            CHECK(shows(field, map));
            draw(field, box, false);
            draw(map, box, false);
            CHECK(shows(field, map));
        }
    }
}

/// Obstacles on a lattice, most of which go at once: what is left is far from the cells round each.
static void gone_together(int maps) {
    for (int i = 0; i < maps; ++i) {
        Map map({300 + below(200), 300 + below(200)}, i % 2 ? Edge::wall : Edge::open);
        const int step = 55 + below(20), left = below(4);
        Map rest = map;
        for (int y = step / 2; y < map.size().height; y += step)
            for (int x = step / 2; x < map.size().width; x += step) {
                draw(map, {x, y, x + 1, y + 1}, true);
                draw(rest, {x, y, x + 1, y + 1}, below(20) < left);
            }
        Field field(map, static_cast<Metric>(i % 3), 1);
        field.update(rest);
        CHECK(shows(field, rest));
    }
}

/// The obstacle at (150, 150) goes with its neighbours. The first window around its 15 by 15 cells
/// has the columns and rows 128 to 172: one nearest obstacle is a step outside of it, and the
/// other, inside, is farther, or as near and goes second. The last is in the second window: some
/// cells know of it, and some don't.
static void outside_windows() {
    struct Row {
        Cell cell, nearest, other;
    };
    const Row rows[] = {
        {{150, 143}, {150, 127}, {166, 143}}, {{143, 150}, {127, 150}, {143, 167}},
        {{157, 150}, {173, 150}, {157, 133}}, {{150, 157}, {150, 173}, {133, 157}},
        {{150, 157}, {150, 120}, {150, 120}},
    };
    for (const Row& row : rows)
        for (Metric metric : {Metric::euclid2, Metric::city, Metric::chess}) {
            Map rest({300, 300});
            for (Cell c : {row.nearest, row.other}) draw(rest, {c.x, c.y, c.x + 1, c.y + 1}, true);
            Map map = rest;
            for (int y : {135, 150, 165})
                for (int x : {135, 150, 165}) draw(map, {x, y, x + 1, y + 1}, true);
            Field field(map, metric);
            CHECK(field.obstacle(row.cell) == (Cell{150, 150}));
            field.update(rest);
            CHECK(field.obstacle(row.cell) == row.nearest && shows(field, rest));
        }
}

/// Makes a change of a field while a request for memory is refused. It is done all the same, or it
/// throws and has changed nothing. Answers how many were refused.
template <class Change>
static int refuse(long number, const Map& map, Change change) {
    Map changed = map;
    change(changed);
    Field field(map, random_metric(), 1);
    bool thrown = false;
    refusals = 0;
    granted = number;
    try {
        change(field);
    } catch (const std::bad_alloc&) {
        thrown = true;
    }
    granted = -1;
    CHECK(shows(field, thrown ? map : changed));
    CHECK(!thrown || refusals > 0);
    return refusals;
}

/// Each request in turn, alone, and then with all that follow it.
template <class Change>
static void without_memory(const Map& map, int least, Change change) {
    for (bool all : {false, true}) {
        all_after = all;
        int number = 0;
        while (refuse(number, map, change) > 0) ++number;
        CHECK(number >= least);
    }
}

static void take(Map& map, const Map& other) { map = other; }
static void take(Field& field, const Map& other) { field.update(other); }

/// Maps of which every cell has changed, or the edge alone, or a few cells.
static void updates_without_memory(const Map& map) {
    const Size size = map.size();
    Map other = map, walled(size, map.edge() == Edge::open ? Edge::wall : Edge::open);
    for (int y = 0; y < size.height; ++y)
        for (int x = 0; x < size.width; ++x) draw(other, {x, y, x + 1, y + 1}, below(9) == 0);
    Map near = map;
    near.clear(90, 40, 94, 48), near.paint(20, 20, 21, 22);
    for (const Map& next : {other, walled, near})
        without_memory(map, 3, [&](auto& drawn) { take(drawn, next); });
}

static void invalid() {
    Map map({70, 5});
    map.paint(1, 1, 2, 2);
    Field field(map);
    const int boxes[][4] = {{0, 0, 0, 1}, {0, 0, 71, 1}, {0, 0, 1, 6},   {-1, 0, 1, 1},
                            {2, 0, 1, 1}, {0, -1, 1, 1}, {70, 4, 71, 5}, {0, 2, 1, 2}};
    const std::string outside = clearmap_status_text(CLEARMAP_OUTSIDE);
    for (auto& b : boxes) {
        CHECK(throws<std::out_of_range>([&] { field.paint(b[0], b[1], b[2], b[3]); }, outside));
        CHECK(throws<std::out_of_range>([&] { field.clear(b[0], b[1], b[2], b[3]); }, outside));
    }
    CHECK(shows(field, map));

    Field other = std::move(field);
    CHECK(throws<std::out_of_range>([&] { field.paint(0, 0, 1, 1); }, outside));
    CHECK(throws<std::out_of_range>([&] { field.clear(0, 0, 1, 1); }, outside));
    const Map none = std::move(map);
    const std::string size = clearmap_status_text(CLEARMAP_SIZE);
    CHECK(throws<std::invalid_argument>([&] { other.update(map); }, size));
    CHECK(throws<std::invalid_argument>([&] { field.update(map); }, size));
    CHECK(shows(other, none));
    field.update(none);
    CHECK(shows(field, none));
    other = std::move(field);
    CHECK(other.paint(69, 4, 70, 5) == 1 && other.obstacle({60, 4}) == (Cell{69, 4}));
}

/// The first and the last cell of the largest map.
static void largest() {
    Field field(Map({4096, 4096}));
    CHECK(field.paint(0, 0, 1, 1) == 1 && field.distance({4095, 4095}) == 2u * 4095 * 4095);
    CHECK(field.paint(4095, 4095, 4096, 4096) == 1 && field.obstacle({4095, 0}) == (Cell{0, 0}));
    CHECK(field.obstacle({4095, 1}) == (Cell{4095, 4095}));
    CHECK(field.clear(0, 0, 1, 1) == 1 && field.distance({0, 0}) == 2u * 4095 * 4095);
    CHECK(shows(field, field.map()));
}

int main(int count, char** words) {
    int maps = count > 1 ? std::stoi(words[1]) : 40;
    drawn(60 * maps, 30, 24, 9);
    drawn(maps, 150, 90, 20);
    updated(5 * maps);
    far_obstacles(2 * maps);
    gone_together(2 * maps);
    outside_windows();
    Map map({200, 100}, Edge::wall);
    map.paint(90, 40, 98, 48), map.paint(5, 5, 6, 6), map.paint(150, 90, 151, 91);
    without_memory(map, 5, [](auto& drawn) { drawn.clear(90, 40, 98, 48); });
    without_memory(map, 2, [](auto& drawn) { drawn.paint(10, 80, 14, 84); });
    updates_without_memory(map);
    invalid();
    if (maps >= 5) largest();
    std::printf("tests of clearmap_field.hpp: %d, all good\n", tried.load());
}
