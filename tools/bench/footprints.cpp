// Footprints by clearmap_footprint.hpp: nanoseconds per pose on a map and on a field, next to a
// look at each covered cell, row by row in bytes, and at each obstacle in the polygon's box whether
// its middle lies in the polygon, which isn't exact. The answers of the first three are compared.
// The least of some rounds, one thread, 100,000 poses drawn at random.
//     footprints IMAGE ROUNDS     a PBM image, as of a floor plan
// Build: g++ -std=c++17 -O2 -pthread -I clients/c -I clients/cpp -o footprints
//     tools/bench/footprints.cpp crates/libclearmap/out/libclearmap.a
#include "clearmap_footprint.hpp"
#include "covered_rows.hpp"

#include <cstdio>
#include <fstream>
#include <functional>
#include <random>

using Clock = std::chrono::steady_clock;
using clearmap::Footprint;
using clearmap::Map;
using clearmap::Point;

struct Pose {
    double x, y, theta;
};

/// A map in bytes, and a polygon that is looked up there without circles.
struct Baseline {
    clearmap::Size size;
    std::vector<unsigned char> cells;
    std::vector<Point> points;

    Baseline(const Map& map, std::vector<Point> polygon)
        : size(map.size()), points(std::move(polygon)) {
        for (int y = 0; y < size.height; ++y)
            for (int x = 0; x < size.width; ++x) cells.push_back(map.is_obstacle({x, y}));
    }

    bool is_obstacle(int x, int y) const {
        return cells[static_cast<std::size_t>(y) * static_cast<std::size_t>(size.width) +
                     static_cast<std::size_t>(x)] != 0;
    }

    /// Each covered cell, exactly.
    bool by_rows(const Pose& pose) const {
        using namespace clearmap::detail;
        const auto c = rounded(std::cos(pose.theta) * unit),
                   s = rounded(std::sin(pose.theta) * unit);
        Corner corners[most_corners];
        std::size_t count = 0;
        for (Point p : points) {
            const auto a = rounded(p.x * steps), b = rounded(p.y * steps);
            corners[count++] = {rounded(pose.x * steps) + floored(a * c - b * s + unit / 2, unit),
                                rounded(pose.y * steps) + floored(a * s + b * c + unit / 2, unit)};
        }
        return any_row(Hull(corners, count), 0, size.height,
                       [&](int row, std::int64_t first, std::int64_t end) {
                           const int last =
                               static_cast<int>(std::min<std::int64_t>(end, size.width));
                           for (int x = std::max(static_cast<int>(first), 0); x < last; ++x)
                               if (is_obstacle(x, row)) return true;
                           return false;
                       });
    }

    /// Each cell of the box whose middle lies in the polygon, by floats.
    bool by_middles(const Pose& pose) const {
        const double c = std::cos(pose.theta), s = std::sin(pose.theta);
        double reach = 0;
        for (Point p : points) reach = std::max(reach, std::hypot(p.x, p.y));
        const int x0 = std::max(0, static_cast<int>(pose.x - reach));
        const int x1 = std::min(size.width - 1, static_cast<int>(pose.x + reach));
        const int y0 = std::max(0, static_cast<int>(pose.y - reach));
        const int y1 = std::min(size.height - 1, static_cast<int>(pose.y + reach));
        for (int y = y0; y <= y1; ++y)
            for (int x = x0; x <= x1; ++x)
                if (is_obstacle(x, y)) {
                    const double dx = x + 0.5 - pose.x, dy = y + 0.5 - pose.y;
                    if (is_in({dx * c + dy * s, dy * c - dx * s})) return true;
                }
        return false;
    }

    bool is_in(Point p) const {
        for (std::size_t k = 0; k < points.size(); ++k) {
            const Point a = points[k], b = points[(k + 1) % points.size()];
            if ((b.x - a.x) * (p.y - a.y) - (b.y - a.y) * (p.x - a.x) < 0) return false;
        }
        return true;
    }
};

/// A way to ask, its answers, and nanoseconds per pose, the least of the rounds so far.
struct Way {
    std::function<bool(const Pose&)> hits;
    std::vector<char> told = {};
    double least = std::numeric_limits<double>::infinity();

    void time(const std::vector<Pose>& poses) {
        told.clear();
        auto start = Clock::now();
        for (const Pose& pose : poses) told.push_back(hits(pose));
        std::chrono::duration<double, std::nano> taken = Clock::now() - start;
        least = std::min(least, taken.count() / static_cast<double>(poses.size()));
    }
};

static std::vector<Pose> random_poses(clearmap::Size size) {
    std::mt19937 random(1);
    std::uniform_real_distribution<double> x(0, size.width), y(0, size.height), turn(-3.14, 3.14);
    std::vector<Pose> poses(100000);
    for (Pose& pose : poses) pose = {x(random), y(random), turn(random)};
    return poses;
}

static void compare(const char* name, const Map& map, const std::vector<Point>& points,
                    int rounds) {
    const clearmap::Field field(map);
    const Baseline baseline(map, points);
    const Footprint robot(points);
    const std::vector<Pose> poses = random_poses(map.size());
    Way ways[] = {{[&](const Pose& p) { return robot.hits(map, p.x, p.y, p.theta); }},
                  {[&](const Pose& p) { return robot.hits(field, p.x, p.y, p.theta); }},
                  {[&](const Pose& p) { return baseline.by_rows(p); }},
                  {[&](const Pose& p) { return baseline.by_middles(p); }}};
    for (int round = 0; round < rounds; ++round)
        for (Way& way : ways) way.time(poses);
    const auto& [by_map, by_field, by_rows, by_middles] = ways;
    long hits = 0, other = 0;
    for (std::size_t k = 0; k < poses.size(); ++k) {
        hits += by_rows.told[k];
        other += by_rows.told[k] != by_middles.told[k];
    }
    const bool same = by_map.told == by_rows.told && by_field.told == by_rows.told;
    std::printf(
        "%s: %ld of %zu hit, by middles %ld others; ns a pose: map %.0f, field %.0f, each "
        "cell %.0f, middles %.0f; answers %s\n",
        name, hits, poses.size(), other, by_map.least, by_field.least, by_rows.least,
        by_middles.least, same ? "the same" : "DIFFER");
}

int main(int count, char** words) {
    if (count != 3) return 2;
    std::ifstream file(words[1], std::ios::binary);
    const std::string image((std::istreambuf_iterator<char>(file)), {});
    const Map map = Map::of_pbm(image);
    const int rounds = std::stoi(words[2]);
    compare("rectangle of 12 by 8", map, {{-6, -4}, {6, -4}, {6, 4}, {-6, 4}}, rounds);
    compare("rectangle of 40 by 20", map, {{-20, -10}, {20, -10}, {20, 10}, {-20, 10}}, rounds);
    std::vector<Point> round;
    for (int k = 0; k < 16; ++k)
        round.push_back({20 * std::cos(k * 0.392699), 10 * std::sin(k * 0.392699)});
    compare("16 points, 40 by 20", map, round, rounds);
}
