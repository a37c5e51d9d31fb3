// Tests of clearmap_signed.hpp, and of the directions of a map and a field: test_signed MAPS, how
// many random maps. Each cell is compared with a search of all cells, after paints and clears too.
#include "clearmap_signed.hpp"
#include "drawing.hpp"
#include "testing.hpp"

// ---- memory that is refused

static std::atomic<long> granted{-1};
[[gnu::noinline]] void* operator new(std::size_t size) {
    if (granted == 0 || (granted > 0 && --granted == 0)) throw std::bad_alloc();
    if (void* place = std::malloc(size)) return place;
    throw std::bad_alloc();
}
[[gnu::noinline]] void* operator new[](std::size_t size) { return operator new(size); }
[[gnu::noinline]] void operator delete(void* place) noexcept { std::free(place); }
[[gnu::noinline]] void operator delete(void* place, std::size_t) noexcept { std::free(place); }
[[gnu::noinline]] void operator delete[](void* place) noexcept { std::free(place); }
[[gnu::noinline]] void operator delete[](void* place, std::size_t) noexcept { std::free(place); }

// ---- a model

/// What is nearest to a cell by the map's rule, and how far.
struct Found {
    double distance = std::numeric_limits<double>::infinity();
    Cell cell{0, 0};
};

static double length(Cell a, Cell b, Metric metric) {
    const int dx = std::abs(a.x - b.x), dy = std::abs(a.y - b.y);
    if (metric == Metric::euclid2) return std::sqrt(static_cast<double>(dx * dx + dy * dy));
    return metric == Metric::city ? dx + dy : std::max(dx, dy);
}

/// The nearest obstacle, with those of a wall's frame, or the nearest free cell of the map.
static Found nearest(const Map& map, Cell c, Metric metric, bool obstacle) {
    const Size size = map.size();
    Found found;
    for (int x = -1; x <= size.width; ++x)
        for (int y = -1; y <= size.height; ++y) {
            const bool in = 0 <= x && x < size.width && 0 <= y && y < size.height;
            const bool wanted =
                in ? map.is_obstacle({x, y}) == obstacle : obstacle && map.edge() == Edge::wall;
            if (!wanted) continue;
            const double far = length({x, y}, c, metric);
            const bool same = far == found.distance && x == found.cell.x &&
                              std::abs(y - c.y) < std::abs(found.cell.y - c.y);
            if (far < found.distance || same) found = {far, {x, y}};
        }
    return found;
}

static std::optional<Direction> way(Cell from, Cell to) {
    const double x = to.x - from.x, y = to.y - from.y, far = length(from, to, Metric::euclid2);
    return Direction{x / far, y / far};
}

/// Whether a signed field, a map and a field tell of each cell what the model does.
static bool tells(const SignedField& field, const Map& map) {
    const Field distances(map, field.metric(), 1);
    if (field.map() != map || !(field.size() == map.size())) return false;
    for (int y = 0; y < map.size().height; ++y)
        for (int x = 0; x < map.size().width; ++x) {
            const Cell c{x, y};
            const bool inside = map.is_obstacle(c);
            const Found found = nearest(map, c, field.metric(), !inside);
            std::optional<Direction> wanted;
            if (std::isfinite(found.distance))
                wanted = inside ? way(c, found.cell) : way(found.cell, c);
            if (field.clearance(c) != (inside ? -found.distance : found.distance)) return false;
            if (!(field.gradient(c) == wanted)) return false;
            if (inside) wanted = std::nullopt;
            if (!(distances.gradient(c) == wanted)) return false;
            if (!(map.gradient(c, field.metric()) == wanted)) return false;
        }
    return true;
}

// ---- the tests

static void drawn(int maps) {
    for (int i = 0; i < maps; ++i) {
        Map map = random_map(22, 18);
        SignedField field(map, random_metric(), 1);
        CHECK(tells(field, map));
        for (int k = 0; k < 4; ++k) {
            const Box box = random_box(map.size(), 8);
            const bool obstacles = below(2) != 0;
            const std::uint32_t changed = draw(map, box, obstacles);
            CHECK(draw(field, box, obstacles) == changed);
            CHECK(tells(field, map));
        }
    }
}

static void inverses(int maps) {
    for (int i = 0; i < maps; ++i) {
        const Map map = random_map(200, 80), inverse = map.inverse();
        CHECK(inverse.edge() == Edge::open && inverse.size() == map.size());
        for (int y = 0; y < map.size().height; ++y)
            for (int x = 0; x < map.size().width; ++x)
                if (map.is_obstacle({x, y}) == inverse.is_obstacle({x, y})) CHECK(false);
        Map open = map;
        if (map.edge() == Edge::wall) {
            open = Map(map.size());
            for (int y = 0; y < map.size().height; ++y)
                for (int x = 0; x < map.size().width; ++x)
                    if (map.is_obstacle({x, y})) open.paint(x, y, x + 1, y + 1);
        }
        CHECK(inverse.inverse() == open);
        CHECK(inverse.inverse().bits().blank_bands == open.bits().blank_bands);
    }
}

/// Of a map of one kind alone, in metres, and off the map.
static void told() {
    const double infinite = std::numeric_limits<double>::infinity();
    const Map blank({70, 4});
    Map full = blank;
    full.paint(0, 0, 70, 4);
    const SignedField free(blank), blocked(full), walled(Map({70, 4}, Edge::wall));
    CHECK(free.clearance({69, 3}) == infinite && !free.gradient({69, 3}));
    CHECK(blocked.clearance({0, 0}) == -infinite && !blocked.gradient({0, 0}));
    CHECK(walled.clearance({3, 0}) == 1 && walled.gradient({3, 0}) == (Direction{0, 1}));
    Map one = blank;
    one.paint(10, 0, 12, 1);
    const SignedField field(one);
    const Frame frame{70, 4, 0.5, -1, -1};
    CHECK(field.metres(frame, 4.25, 0.75) == -0.5 && field.metres(frame, 9.25, 0.75) == 4.5);
    CHECK(field.metres(frame, -1.5, 0) == 0);
    const Frame wrong{70, 400, 0.5, -1, -1};
    CHECK(throws<std::invalid_argument>([&] { field.metres(wrong, 4, 4); }, "another size"));
    CHECK(throws<std::out_of_range>(
        [&] {
            one.gradient({70, 0});
        },
        clearmap_status_text(CLEARMAP_OUTSIDE)));
    Map moved = one;
    const Map taken = std::move(moved);
    CHECK(throws<std::invalid_argument>([&] { SignedField none(moved); },
                                        clearmap_status_text(CLEARMAP_SIZE)));
}

/// A change that is refused, for its rectangle or because memory ran out, has changed nothing.
static void refused_changes() {
    Map map({60, 40}, Edge::wall);
    map.paint(5, 5, 9, 9), map.paint(30, 20, 50, 22);
    for (long number = 1; number < 40; ++number) {
        SignedField field(map);
        bool thrown = false;
        granted = number;
        try {
            number % 2 ? field.paint(10, 2, 14, 7) : field.clear(30, 20, 40, 22);
        } catch (const std::bad_alloc&) {
            thrown = true;
        }
        const bool met = granted == 0;
        granted = -1;
        Map changed = map;
        if (!thrown) number % 2 ? changed.paint(10, 2, 14, 7) : changed.clear(30, 20, 40, 22);
        CHECK(tells(field, changed) && (met || !thrown));
        CHECK(throws<std::out_of_range>([&] { field.paint(50, 0, 61, 2); }));
        CHECK(throws<std::out_of_range>([&] { field.clear(3, 3, 3, 4); }));
        CHECK(tells(field, changed));
    }
}

/// Eight threads look cells up.
static void threads() {
    const Map map = random_map(60, 50);
    const SignedField field(map);
    std::vector<std::thread> started;
    for (int k = 0; k < 8; ++k) started.emplace_back([&] { CHECK(tells(field, map)); });
    for (std::thread& thread : started) thread.join();
}

int main(int count, char** words) {
    const int maps = count > 1 ? std::stoi(words[1]) : 40;
    drawn(2 * maps);
    inverses(maps);
    told();
    refused_changes();
    threads();
    std::printf("tests of clearmap_signed.hpp: %d, all good\n", tried.load());
}
