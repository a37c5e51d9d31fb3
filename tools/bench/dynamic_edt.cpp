// DynamicEDT3D next to clearmap_map.hpp on random maps: each cell's distance, before and after some
// paints and clears, and the time of a first build, of a look-up, and of a paint or a clear of 8 by
// 8 cells with 1,000 look-ups, by `paint` and `clear` of a field and by `update` of its map. Then
// the time of an update after one cell in five was redrawn: theirs of these cells, ours, and theirs
// of a new build.
//     dynamic_edt SIDE PERCENT ROUNDS
// Build: g++ -std=c++17 -O2 -pthread -I clients/c -I clients/cpp -o dynamic_edt
//     tools/bench/dynamic_edt.cpp crates/libclearmap/out/libclearmap.a -ldynamicedt3d
// (Debian's libdynamicedt3d-dev). One thread; nanoseconds, the least of the rounds, and of a paint
// or a clear the median, since each is at another place, the same for both.
#include "clearmap_map.hpp"

#include <dynamicEDT3D/dynamicEDT3D.h>

#include <cstdio>
#include <functional>
#include <random>

using Clock = std::chrono::steady_clock;

/// How long a call takes.
static double time_of(const std::function<void()>& call) {
    auto start = Clock::now();
    call();
    return std::chrono::duration<double, std::nano>(Clock::now() - start).count();
}

/// The least time of some rounds of a call.
static double least(int rounds, const std::function<void()>& call) {
    double best = std::numeric_limits<double>::infinity();
    for (int i = 0; i < rounds; ++i) best = std::min(best, time_of(call));
    return best;
}

static double median(std::vector<double> times) {
    auto middle = times.begin() + static_cast<std::ptrdiff_t>(times.size() / 2);
    std::nth_element(times.begin(), middle, times.end());
    return *middle;
}

/// A map of random obstacles, as both take it.
struct Grid {
    int side;
    std::vector<unsigned char> cells;

    Grid(int length, double percent)
        : side(length), cells(static_cast<std::size_t>(length) * static_cast<std::size_t>(length)) {
        std::mt19937 random(1);
        std::bernoulli_distribution obstacle(percent / 100);
        for (unsigned char& cell : cells) cell = obstacle(random);
    }

    void build(std::optional<DynamicEDT3D>& theirs) const {
        theirs.emplace(2 * side * side);
        theirs->initializeEmpty(side, side, 1);
        occupy(*theirs);
        theirs->update();
    }

    /// Tells the cells that differ from another grid's.
    void change(DynamicEDT3D& theirs, const Grid& before) const {
        auto cell = cells.begin(), old = before.cells.begin();
        for (int y = 0; y < side; ++y)
            for (int x = 0; x < side; ++x, ++cell, ++old)
                if (*cell != *old) *cell ? theirs.occupyCell(x, y, 0) : theirs.clearCell(x, y, 0);
        theirs.update();
    }

    void occupy(DynamicEDT3D& theirs) const {
        auto cell = cells.begin();
        for (int y = 0; y < side; ++y)
            for (int x = 0; x < side; ++x)
                if (*cell++) theirs.occupyCell(x, y, 0);
    }
};

/// How many cells differ, and by how much at most, in cells.
static void compare(DynamicEDT3D& theirs, const clearmap::Field& ours, int side) {
    long differing = 0;
    double most = 0;
    for (int y = 0; y < side; ++y)
        for (int x = 0; x < side; ++x) {
            int square = theirs.getSQCellDistance(x, y, 0);
            if (square == static_cast<int>(ours.distance({x, y}))) continue;
            ++differing;
            most = std::max(most, std::abs(std::sqrt(square) - ours.clearance({x, y})));
        }
    std::printf("cells %ld, differing %ld, by %.3f cells at most\n", static_cast<long>(side) * side,
                differing, most);
}

/// Cells to look up, and the sum of their distances, so that no look-up is optimized away.
struct LookUps {
    std::vector<clearmap::Cell> cells = std::vector<clearmap::Cell>(1000);
    volatile double sum = 0;

    explicit LookUps(int side) {
        std::mt19937 random(2);
        std::uniform_int_distribution<int> at(0, side - 1);
        for (clearmap::Cell& cell : cells) cell = {at(random), at(random)};
    }
    void of(const DynamicEDT3D& theirs) {
        for (auto c : cells) sum = sum + theirs.getDistance(c.x, c.y, 0);
    }
    void of(const clearmap::Field& ours) {
        for (auto c : cells) sum = sum + ours.clearance(c);
    }
};

/// Makes a box of 8 by 8 cells obstacles or free, and looks up.
static void draw(DynamicEDT3D& theirs, int x0, int y0, bool obstacles, LookUps& look_ups) {
    for (int y = y0; y < y0 + 8; ++y)
        for (int x = x0; x < x0 + 8; ++x)
            obstacles ? theirs.occupyCell(x, y, 0) : theirs.clearCell(x, y, 0);
    theirs.update();
    look_ups.of(theirs);
}

template <class Drawn>
static void draw(Drawn& drawn, int x0, int y0, bool obstacles) {
    obstacles ? drawn.paint(x0, y0, x0 + 8, y0 + 8) : drawn.clear(x0, y0, x0 + 8, y0 + 8);
}

/// The times of paints, and of the clears that follow them: theirs, a field's own, and those of a
/// field that follows its map.
struct Draws {
    std::vector<double> theirs[2], ours[2], updates[2];

    void time(DynamicEDT3D& other, clearmap::Field& field, clearmap::Field& follower, int rounds) {
        const int side = field.size().width;
        LookUps look_ups(side);
        clearmap::Map map = follower.map();
        std::mt19937 random(3);
        std::uniform_int_distribution<int> at(1, side - 10);
        for (int i = 0; i < 2 * rounds; ++i) {
            const bool paints = i % 2 == 0;
            if (paints) x_ = at(random), y_ = at(random);
            theirs[paints].push_back(time_of([&] { draw(other, x_, y_, paints, look_ups); }));
            ours[paints].push_back(time_of([&] {
                draw(field, x_, y_, paints);
                look_ups.of(field);
            }));
            draw(map, x_, y_, paints);
            updates[paints].push_back(time_of([&] {
                follower.update(map);
                look_ups.of(follower);
            }));
        }
    }

    void print(const char* name, bool paints) const {
        const double other = median(theirs[paints]);
        const double field = median(ours[paints]), update = median(updates[paints]);
        std::printf("%s and 1,000 look-ups: theirs %.0f, ours %.0f: %.1f; by update %.0f: %.1f\n",
                    name, other, field, other / field, update, other / update);
    }

private:
    int x_ = 0, y_ = 0;
};

/// One cell in five is redrawn, some rounds: the least times of an update, and of their new build.
static void redraw(const Grid& grid, int rounds) {
    Grid now = grid;
    std::mt19937 random(4);
    std::bernoulli_distribution changes(0.2);
    const clearmap::Size size{grid.side, grid.side};
    auto map = [&] {
        return clearmap::Map::of_bytes(now.cells, size, {1, 255}, clearmap::Rows::downwards);
    };
    clearmap::Field field(map(), clearmap::Metric::euclid2, 1);
    std::optional<DynamicEDT3D> theirs;
    grid.build(theirs);
    double ours = std::numeric_limits<double>::infinity(), other = ours, anew = ours;
    for (int i = 0; i < rounds; ++i) {
        const Grid before = now;
        for (unsigned char& cell : now.cells)
            if (changes(random)) cell = !cell;
        const clearmap::Map next = map();
        ours = std::min(ours, time_of([&] { field.update(next); }));
        other = std::min(other, time_of([&] { now.change(*theirs, before); }));
        std::optional<DynamicEDT3D> fresh;
        anew = std::min(anew, time_of([&] { now.build(fresh); }));
    }
    compare(*theirs, field, grid.side);
    std::printf("a fifth drawn anew: theirs %.0f, their build %.0f, ours %.0f: %.1f, %.1f\n", other,
                anew, ours, other / ours, anew / ours);
}

int main(int count, char** words) {
    if (count != 4) return 2;
    const int side = std::stoi(words[1]), rounds = std::stoi(words[3]);
    Grid grid(side, std::stod(words[2]));
    std::optional<DynamicEDT3D> theirs;
    double build_theirs = least(std::min(rounds, 5), [&] { grid.build(theirs); });
    std::optional<clearmap::Field> field;
    double build_ours = least(std::min(rounds, 5), [&] {
        field.emplace(clearmap::Map::of_bytes(grid.cells, {side, side}, {1, 255},
                                              clearmap::Rows::downwards),
                      clearmap::Metric::euclid2, 1);
    });
    compare(*theirs, *field, side);
    std::printf("build: theirs %.0f, ours %.0f: %.1f\n", build_theirs, build_ours,
                build_theirs / build_ours);

    LookUps look_ups(side);
    double look_theirs = least(20 * rounds, [&] { look_ups.of(*theirs); });
    double look_ours = least(20 * rounds, [&] { look_ups.of(*field); });
    std::printf("look-up: theirs %.1f, ours %.1f\n", look_theirs / 1000, look_ours / 1000);

    clearmap::Field follower(field->map(), clearmap::Metric::euclid2, 1);
    std::printf("the first change of a field: %.0f\n",
                time_of([&] { field->paint(0, 0, 1, 1), field->clear(0, 0, 1, 1); }));
    follower.update(field->map());
    theirs->clearCell(0, 0, 0);
    Draws draws;
    draws.time(*theirs, *field, follower, rounds);
    draws.print("paint", true);
    draws.print("clear", false);
    compare(*theirs, *field, side);
    compare(*theirs, follower, side);
    redraw(grid, std::min(rounds, 9));
}
