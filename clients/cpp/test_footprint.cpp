// Tests of clearmap_footprint.hpp: test_footprint MAPS [CASES], how many random maps, and a file of
// maps, footprints and poses with their answers, which footprint_model.py writes. Random answers
// are compared with a search of all cells by separating axes.
#include "clearmap_footprint.hpp"
#include "drawing.hpp"
#include "testing.hpp"

#include <fstream>
#include <sstream>

// ---- memory that queries ask for

static std::atomic<long> asked_for{0};
[[gnu::noinline]] void* operator new(std::size_t size) {
    ++asked_for;
    if (void* place = std::malloc(size)) return place;
    throw std::bad_alloc();
}
[[gnu::noinline]] void operator delete(void* place) noexcept { std::free(place); }
[[gnu::noinline]] void operator delete(void* place, std::size_t) noexcept { std::free(place); }

// ---- a model

struct At {
    double x, y, theta;
};

static double real(double from, double to) {
    return std::uniform_real_distribution<double>(from, to)(random_numbers);
}

/// The corners of a footprint in cells at a pose, in steps of 1/65536 of a cell.
static std::vector<detail::Corner> corners_at(const std::vector<Point>& points, const At& pose) {
    auto whole = [](long double number) {
        return static_cast<std::int64_t>(std::floor(number + 0.5L));
    };
    const std::int64_t cosine = whole(std::cos(pose.theta) * 1073741824.0L);
    const std::int64_t sine = whole(std::sin(pose.theta) * 1073741824.0L);
    std::vector<detail::Corner> corners;
    for (Point p : points) {
        const std::int64_t a = whole(p.x * 65536.0L), b = whole(p.y * 65536.0L);
        corners.push_back(
            {whole(pose.x * 65536.0L) +
                 whole(static_cast<long double>(a * cosine - b * sine) / 1073741824.0L),
             whole(pose.y * 65536.0L) +
                 whole(static_cast<long double>(a * sine + b * cosine) / 1073741824.0L)});
    }
    return corners;
}

/// Whether a line of this direction parts a cell from the corners.
static bool parts(std::int64_t dx, std::int64_t dy, const std::vector<detail::Corner>& corners,
                  int x, int y) {
    const std::int64_t cell = 65536, start = -dy * x * cell + dx * y * cell;
    const std::int64_t none = 0;
    const std::int64_t least = start + (std::min(-dy, none) + std::min(dx, none)) * cell;
    const std::int64_t most = start + (std::max(-dy, none) + std::max(dx, none)) * cell;
    bool below_all = true, above_all = true;
    for (detail::Corner c : corners) {
        const std::int64_t at = -dy * c.x + dx * c.y;
        below_all = below_all && at >= most;
        above_all = above_all && at <= least;
    }
    return below_all || above_all;
}

static bool covers(const std::vector<detail::Corner>& corners, int x, int y) {
    if (parts(1, 0, corners, x, y) || parts(0, 1, corners, x, y)) return false;
    for (detail::Corner a : corners)
        for (detail::Corner b : corners)
            if (!(a == b) && parts(b.x - a.x, b.y - a.y, corners, x, y)) return false;
    return true;
}

/// Whether a covered cell is an obstacle, among the cells of the map and 40 around it.
static bool model_hits(const Map& map, const std::vector<Point>& points, const At& pose) {
    const std::vector<detail::Corner> corners = corners_at(points, pose);
    const Size size = map.size();
    for (int y = -40; y < size.height + 40; ++y)
        for (int x = -40; x < size.width + 40; ++x) {
            const bool in = 0 <= x && x < size.width && 0 <= y && y < size.height;
            const bool obstacle = in ? map.is_obstacle({x, y}) : map.edge() == Edge::wall;
            if (obstacle && covers(corners, x, y)) return true;
        }
    return false;
}

// ---- what is drawn

static std::vector<Point> random_points() {
    const double size = std::pow(2.0, real(-3, 3.5));
    std::vector<Point> points;
    if (below(3) == 0) {
        const double x = below(12) / 2.0 + 0.5, y = below(12) / 2.0 + 0.5;
        points = {{-x, -y}, {x, -y}, {x, y}, {-x, y}};
    } else {
        std::vector<double> angles(static_cast<std::size_t>(3 + below(8)));
        for (double& angle : angles) angle = real(0, 6.2831853);
        std::sort(angles.begin(), angles.end());
        const double wide = size * (below(2) ? 1 : 0.2);
        for (double angle : angles)
            points.push_back({size * std::cos(angle), wide * std::sin(angle)});
    }
    if (below(2)) std::reverse(points.begin(), points.end());
    return points;
}

static std::optional<Footprint> footprint_of(const std::vector<Point>& points) {
    try {
        return Footprint(points);
    } catch (const std::invalid_argument&) {
        return std::nullopt;  // it is too thin
    }
}

static At random_pose(Size size) {
    At pose{real(-4, size.width + 4), real(-4, size.height + 4), real(-10, 10)};
    if (below(3) == 0) pose.x = std::round(2 * pose.x) / 2, pose.y = std::round(2 * pose.y) / 2;
    if (below(3) == 0) pose.theta = (below(17) - 8) * 0.78539816339744831;
    return pose;
}

/// A pose of cells as one of metres in a frame, y upwards. The points have y upwards there too.
static At in_metres(const Frame& frame, const At& pose) {
    return {frame.origin_x + pose.x * frame.resolution,
            frame.origin_y + (frame.height - pose.y) * frame.resolution, -pose.theta};
}

// ---- the tests

static void check(const Map& map, const Field& field, const Field& other, const Footprint& robot,
                  const At& pose, bool wanted) {
    const long before = asked_for;
    const bool told = robot.hits(map, pose.x, pose.y, pose.theta);
    const bool looked_up = robot.hits(field, pose.x, pose.y, pose.theta);
    const bool asked = robot.hits(other, pose.x, pose.y, pose.theta);
    const bool clear = robot.is_clear(map, pose.x, pose.y, pose.theta);
    CHECK(asked_for == before);
    CHECK(told == wanted && looked_up == wanted && asked == wanted && clear != wanted);
}

static void against_the_model(int maps) {
    for (int i = 0; i < maps; ++i) {
        const Map map = random_map(24, 20);
        const Field field(map, Metric::euclid2, 1), other(map, Metric::city, 1);
        const std::vector<Point> points = random_points();
        const auto robot = footprint_of(points);
        if (!robot) continue;
        for (int k = 0; k < 6; ++k) {
            const At pose = random_pose(map.size());
            check(map, field, other, *robot, pose, model_hits(map, points, pose));
        }
    }
}

/// The square of a point's distance from a segment.
static long double from_segment(detail::Corner p, detail::Corner a, detail::Corner b) {
    using Real = long double;
    const Real dx = static_cast<Real>(b.x - a.x), dy = static_cast<Real>(b.y - a.y);
    const Real px = static_cast<Real>(p.x - a.x), py = static_cast<Real>(p.y - a.y);
    const Real square = dx * dx + dy * dy;
    const Real along = square > 0 ? std::clamp((px * dx + py * dy) / square, Real{0}, Real{1}) : 0;
    return (px - along * dx) * (px - along * dx) + (py - along * dy) * (py - along * dy);
}

/// The distance of corners that cover no part of a cell from its square, in cells: between all
/// segments of both.
static double model_gap(const std::vector<detail::Corner>& corners, int x, int y) {
    const std::int64_t x0 = x * detail::steps, y0 = y * detail::steps, side = detail::steps;
    const detail::Corner square[] = {
        {x0, y0}, {x0 + side, y0}, {x0 + side, y0 + side}, {x0, y0 + side}};
    long double least = std::numeric_limits<long double>::infinity();
    for (detail::Corner a : corners)
        for (detail::Corner b : corners)
            for (std::size_t k = 0; k < 4; ++k) {
                least = std::min(least, from_segment(square[k], a, b));
                least = std::min(least, from_segment(a, square[k], square[(k + 1) % 4]));
            }
    return static_cast<double>(std::sqrt(least) / detail::steps);
}

/// The least distance from an obstacle, and with a wall from the border; 0 if one is hit.
static double model_clearance(const Map& map, const std::vector<Point>& points, const At& pose) {
    if (model_hits(map, points, pose)) return 0;
    const std::vector<detail::Corner> corners = corners_at(points, pose);
    const Size size = map.size();
    double least = std::numeric_limits<double>::infinity();
    for (int y = 0; y < size.height; ++y)
        for (int x = 0; x < size.width; ++x)
            if (map.is_obstacle({x, y})) least = std::min(least, model_gap(corners, x, y));
    if (map.edge() == Edge::wall)
        for (detail::Corner c : corners)
            for (std::int64_t off : {c.x, size.width * detail::steps - c.x, c.y,
                                     size.height * detail::steps - c.y})
                least = std::min(least, static_cast<double>(off) / detail::steps);
    return least;
}

/// Clearances are never more than the model's, and less by at most 1/8192 of a cell.
static void clearances(int maps) {
    int apart = 0;
    for (int i = 0; i < maps; ++i) {
        const Map map = i % 2 ? random_map(24, 20) : random_map(150, 6);
        const std::vector<Point> points = random_points();
        const auto robot = footprint_of(points);
        if (!robot) continue;
        for (int k = 0; k < 4; ++k) {
            const At pose = random_pose(map.size());
            const double wanted = model_clearance(map, points, pose);
            const long before = asked_for;
            const double told = robot->clearance(map, pose.x, pose.y, pose.theta);
            CHECK(asked_for == before);
            CHECK(told <= wanted && told >= 0);
            CHECK(std::isinf(wanted) ? std::isinf(told) : told >= wanted - 1.0 / 8192);
            apart += wanted > 0 && !std::isinf(wanted);
        }
    }
    CHECK(apart > maps / 4);
}

/// Clearances by hand, in cells and metres.
static void clearances_by_hand() {
    Map map({30, 20});
    const Footprint square({{-1, -1}, {1, -1}, {1, 1}, {-1, 1}});
    CHECK(std::isinf(square.clearance(map, 12, 5.5, 0)));
    map.paint(7, 5, 8, 6);
    auto is = [](double told, double wanted) { return told <= wanted && told > wanted - 1e-4; };
    CHECK(is(square.clearance(map, 12, 5.5, 0), 3) && is(square.clearance(map, 12, 11, 0), 5));
    CHECK(is(square.clearance(map, -3, 5.5, 0), 8.9999 + 1e-4));
    CHECK(square.clearance(map, 9, 5.5, 0) == 0 && square.clearance(map, 7.5, 5.5, 1) == 0);
    CHECK(is(square.clearance(map, 12 + std::sqrt(2.0) - 1, 5.5, 0.78539816339744831), 3));
    const Footprint metres({{-0.5, -0.5}, {0.5, -0.5}, {0.5, 0.5}, {-0.5, 0.5}}, 0.5);
    CHECK(is(metres.clearance(map, Frame{30, 20, 0.5, 0, 0}, 6, 7.25, 0), 1.5));
    const Map walled({30, 20}, Edge::wall);
    CHECK(is(square.clearance(walled, 4, 9, 0), 3) && square.clearance(walled, 50, 9, 0) == 0);
    Map large({4096, 4096});
    large.paint(4095, 4095, 4096, 4096);
    CHECK(is(square.clearance(large, 1, 4095.5, 0), 4093));
    CHECK(is(square.clearance(large, -1048576.0, 4095.5, 0), 1048576 + 4094));
    CHECK(throws<std::invalid_argument>([&] { (void)square.clearance(map, 2e6, 0, 0); }, "1048576"));
    CHECK(throws<std::invalid_argument>(
        [&] { (void)square.clearance(map, std::nan(""), 0, 0); }, "finite"));
}

/// In metres, y upwards: as the mirrored footprint in cells. All lengths are whole in binary.
static void in_frames(int maps) {
    for (int i = 0; i < maps; ++i) {
        const Map map = random_map(24, 20);
        const Frame frame{map.size().width, map.size().height, 0.0625, -2, 3};
        std::vector<Point> points = random_points(), metres, mirrored;
        for (Point p : points) {
            p = {std::round(p.x * 1024) / 1024, std::round(p.y * 1024) / 1024};
            metres.push_back({p.x * 0.0625, p.y * 0.0625});
            mirrored.push_back({p.x, -p.y});
        }
        const auto robot = footprint_of(mirrored);
        if (!robot) continue;
        const Footprint by_metres(metres, 0.0625);
        for (int k = 0; k < 10; ++k) {
            At pose = random_pose(map.size());
            pose.x = std::round(pose.x * 1024) / 1024, pose.y = std::round(pose.y * 1024) / 1024;
            const At there = in_metres(frame, pose);
            const bool wanted = robot->hits(map, pose.x, pose.y, pose.theta);
            CHECK(by_metres.hits(map, frame, there.x, there.y, there.theta) == wanted);
            CHECK(by_metres.is_clear(Field(map), frame, there.x, there.y, there.theta) != wanted);
        }
    }
}

/// The cases of a file, which a model in Python has answered.
static void cases(const char* name) {
    std::ifstream file(name);
    std::optional<Field> field, other;
    std::optional<Footprint> robot;
    int poses = 0;
    for (std::string line, kind; std::getline(file, line);) {
        std::istringstream words(line);
        words >> kind;
        auto number = [&] {
            std::string word;
            words >> word;
            return std::strtod(word.c_str(), nullptr);
        };
        if (kind == "map") {
            Size size{};
            std::string edge, cells;
            words >> size.width >> size.height >> edge >> cells;
            field.emplace(Map::of_bytes(cells, size, {'1', '1'}, Rows::downwards,
                                        edge == "wall" ? Edge::wall : Edge::open));
            other.emplace(field->map(), Metric::chess);
        } else if (kind == "footprint") {
            const double resolution = number();
            std::vector<Point> points;
            while (words >> std::ws && !words.eof()) {
                const double x = number();
                points.push_back({x, number()});
            }
            robot.emplace(points, resolution);
        } else {
            const double x = number(), y = number(), theta = number();
            check(field->map(), *field, *other, *robot, {x, y, theta}, number() != 0);
            ++poses;
        }
    }
    CHECK(poses > 0);
    std::printf("poses of the file: %d\n", poses);
}

/// Eight threads ask one map and one field.
static void threads() {
    Map map({300, 200}, Edge::wall);
    for (int k = 0; k < 60; ++k) draw(map, random_box(map.size(), 4), true);
    const Field field(map);
    const Footprint robot({{-6, -4}, {7, 0}, {-6, 4}});
    std::vector<At> poses(2000);
    std::vector<char> wanted;
    for (At& pose : poses) {
        pose = random_pose(map.size());
        wanted.push_back(robot.hits(map, pose.x, pose.y, pose.theta));
    }
    std::vector<std::thread> started;
    for (int k = 0; k < 8; ++k)
        started.emplace_back([&, k] {
            for (std::size_t i = 0; i < poses.size(); ++i) {
                const At& pose = poses[(i + 97 * static_cast<std::size_t>(k)) % poses.size()];
                const bool hits = k % 2 ? robot.hits(map, pose.x, pose.y, pose.theta)
                                        : robot.hits(field, pose.x, pose.y, pose.theta);
                CHECK(hits == (wanted[static_cast<std::size_t>(&pose - poses.data())] != 0));
            }
        });
    for (std::thread& thread : started) thread.join();
}

static bool refused(const std::vector<Point>& points, const std::string& words) {
    return throws<std::invalid_argument>([&] { Footprint robot(points); }, words);
}

static void invalid() {
    const double infinite = std::numeric_limits<double>::infinity(), none = std::nan("");
    const std::vector<Point> square = {{-1, -1}, {1, -1}, {1, 1}, {-1, 1}};
    CHECK(refused({}, "3 to 128 points") && refused({{0, 0}, {1, 1}}, "3 to 128 points"));
    CHECK(refused({{0, 0}, {1, 1}, {2, 2}}, "in one line"));
    CHECK(refused({{3, 3}, {3, 3}, {3, 3}}, "in one line"));
    CHECK(refused({{-1, -1}, {1, -1}, {0, 0}, {1, 1}, {-1, 1}}, "convex"));
    CHECK(refused({{-1, -1}, {1, 1.5}, {1, -1}, {-1, 1}}, "convex"));
    CHECK(refused({{-1, -1}, {1, -1}, {1, 1}, {0, -1}, {-1, 1}}, "convex"));
    std::vector<Point> often, many(129, Point{1, 1});
    for (int k = 0; k < 128; ++k)  // 32 times round: its area is beyond 64 bits
        often.push_back({4095.9 * (k % 4 == 0) - 4095.9 * (k % 4 == 2),
                         4095.9 * (k % 4 == 1) - 4095.9 * (k % 4 == 3)});
    CHECK(refused(often, "convex") && refused(many, "3 to 128 points"));
    CHECK(refused({{0, 0}, {5, 0}, {5, 1e-4}}, "1/1024 of a cell"));
    CHECK(refused({{0, 0}, {none, 0}, {0, 1}}, "finite"));
    CHECK(refused({{0, 0}, {1, 0}, {0, infinite}}, "finite"));
    CHECK(refused({{0, 0}, {1, 0}, {0, 4096.01}}, "4096 cells"));
    CHECK(refused({{0, 0}, {1e308, 1e308}, {0, 1}}, "4096 cells"));
    for (double resolution : {0.0, -1.0, none, infinite})
        CHECK(throws<std::invalid_argument>([&] { Footprint robot(square, resolution); }, "size"));

    Map map({20, 10});
    const Footprint robot(square), metres(square, 0.5);
    for (double wrong : {none, infinite, -infinite}) {
        CHECK(throws<std::invalid_argument>([&] { (void)robot.hits(map, wrong, 0, 0); }, "finite"));
        CHECK(throws<std::invalid_argument>([&] { (void)robot.hits(map, 0, wrong, 0); }, "finite"));
        CHECK(throws<std::invalid_argument>([&] { (void)robot.hits(map, 0, 0, wrong); }, "finite"));
    }
    CHECK(throws<std::invalid_argument>(
        [&] {
            (void)robot.hits(map, Frame{20, 11, 1, 0, 0}, 0, 0, 0);
        },
        "another size"));
    CHECK(throws<std::invalid_argument>(
        [&] {
            (void)metres.hits(map, Frame{20, 10, 0.05, 0, 0}, 0, 0, 0);
        },
        "another resolution"));
    CHECK(!metres.hits(map, Frame{20, 10, 0.5, 0, 0}, 3, 3, 0));
    const Map moved = std::move(map);
    CHECK(throws<std::invalid_argument>([&] { (void)robot.hits(map, 0, 0, 0); },
                                        clearmap_status_text(CLEARMAP_SIZE)));
    CHECK(robot.is_clear(moved, 3, 3, 0) && robot.is_clear(moved, -1e300, 1e300, 1e300));
    CHECK(robot.hits(Map({20, 10}, Edge::wall), -1e300, 1e300, 1e300));
}

/// The largest footprint on the largest map, and the square whose sides lie on those of cells.
static void limits() {
    Map map({4096, 4096});
    map.paint(4095, 4095, 4096, 4096);
    const double side = 4096 / std::sqrt(2.0) * (1 - 1e-9);
    const Footprint huge({{-side, -side}, {side, -side}, {side, side}, {-side, side}});
    CHECK(huge.hits(map, 0, 4095.5, 0.78539816339744831) && huge.is_clear(map, -1, 0, 0));
    CHECK(huge.hits(map, 8191, 4095.5, 0.78539816339744831) && huge.is_clear(map, 8193, 8193, 0));
    const Footprint square({{-1, -1}, {1, -1}, {1, 1}, {-1, 1}});
    for (int turn = -9; turn < 10; ++turn) {
        const double theta = turn * 1.5707963267948966;
        CHECK(square.is_clear(map, 4094, 4096, theta) && square.hits(map, 4095, 4095, theta));
        CHECK(square.is_clear(map, 4094, 4094, theta) &&
              square.hits(map, 4097 - 2e-5, 4096, theta));
        CHECK(square.is_clear(map, 4097, 4096, theta));
    }
}

/// Sides through corners of cells: the cell that such a corner belongs to alone isn't covered,
/// however a quotient is rounded.
static void through_corners() {
    for (int half = 2; half < 130; ++half) {
        const Footprint left({{0, 0}, {2, 2.0 * half}, {5, 0}});
        const Footprint right({{0, 0}, {-2, 2.0 * half}, {-5, 0}});
        Map map({12, 300});
        map.paint(0, half, 1, half + 1), map.paint(11, half, 12, half + 1);
        CHECK(left.is_clear(map, 0, 0, 0) && right.is_clear(map, 12, 0, 0));
        map.paint(0, half - 1, 1, half);
        CHECK(left.hits(map, 0, 0, 0) && right.is_clear(map, 12, 0, 0));
        map.paint(11, half - 1, 12, half);
        CHECK(right.hits(map, 12, 0, 0));
    }
}

int main(int count, char** words) {
    const int maps = count > 1 ? std::stoi(words[1]) : 40;
    against_the_model(10 * maps);
    in_frames(10 * maps);
    clearances(10 * maps);
    clearances_by_hand();
    if (count > 2) cases(words[2]);
    threads();
    invalid();
    limits();
    through_corners();
    std::printf("tests of clearmap_footprint.hpp: %d, all good\n", tried.load());
}
