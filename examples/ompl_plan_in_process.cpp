// Plans by four of OMPL's RRT* at a time over one map in process: ompl_plan_in_process MAP.pbm
// RESOLUTION ORIGIN_X ORIGIN_Y RADIUS FROM_X FROM_Y TO_X TO_Y, all in metres. The planners, each in
// a thread of its own, share the map, its table of distances and the checkers that ask them: no
// lock, and no server. It prints what each point of the plan has free in any case, which is never
// more than its distance from an obstacle, and then the same of the whole plan.
// Build: g++ -std=c++17 -I clients/c -I clients/cpp $(pkg-config --cflags ompl) -pthread
//     -o ompl_plan_in_process examples/ompl_plan_in_process.cpp -lclearmap -lompl
#include <clearmap_map.hpp>
#include <ompl/base/objectives/MinimaxObjective.h>
#include <ompl/base/spaces/RealVectorStateSpace.h>
#include <ompl/geometric/PathGeometric.h>
#include <ompl/geometric/planners/rrt/RRTstar.h>
#include <ompl/tools/multiplan/ParallelPlan.h>
#include <ompl/util/RandomNumbers.h>

#include <atomic>
#include <fstream>
#include <iostream>
#include <sstream>

namespace ob = ompl::base;
namespace og = ompl::geometric;

/// The number that a word is as a whole: "1/20" and "0,05" are none.
template <class Number>
Number read(const std::string& word) {
    std::istringstream text(word);
    Number found{};
    if (!(text >> std::noskipws >> found) || text.peek() != EOF)
        throw clearmap::Error("'" + word + "' is no number");
    return found;
}

/// Metres, rounded down: what is told is there.
double down(double metres) { return std::floor(metres * 1e6) / 1e6; }

/// What the planners share, in metres.
struct World {
    clearmap::Frame frame;
    clearmap::Map map;
    clearmap::Field field;
    std::uint32_t needed;

    World(clearmap::Map read, double resolution, clearmap::Point origin, double radius)
        : frame{read.size().width, read.size().height, resolution, origin.x, origin.y},
          map(std::move(read)),
          field(map),
          needed(frame.clear_distance(radius)) {}

    static clearmap::Point point(const ob::State* state) {
        const auto* xy = state->as<ob::RealVectorStateSpace::StateType>();
        return {(*xy)[0], (*xy)[1]};
    }
    std::optional<clearmap::Path> cells(const ob::State* from, const ob::State* to) const {
        return frame.staircase({point(from), point(to)});
    }

    /// Whether the robot has clearance at a state: a look-up.
    bool clear(const ob::State* state) const {
        auto cell = frame.cell(point(state).x, point(state).y);
        return cell && field.distance(*cell) >= needed;
    }
    bool clear(const ob::State* from, const ob::State* to) const {
        auto path = cells(from, to);
        return path && path->size() <= 1000 && map.is_clear(needed, *path);
    }
    double clearance(const ob::State* state) const {
        return field.free_metres(frame, point(state).x, point(state).y);
    }
    double clearance(const ob::State* from, const ob::State* to) const {
        auto path = cells(from, to);
        return path ? frame.free_metres(map.clearance(*path)) : 0;
    }
};

struct Valid : ob::StateValidityChecker {
    const World& world;
    Valid(const ob::SpaceInformationPtr& space, const World& shared)
        : StateValidityChecker(space), world(shared) {}
    bool isValid(const ob::State* state) const override { return world.clear(state); }
    double clearance(const ob::State* state) const override { return world.clearance(state); }
};

/// A motion is one query of a path, not many of states.
struct ValidMotion : ob::MotionValidator {
    const World& world;
    ValidMotion(const ob::SpaceInformationPtr& space, const World& shared)
        : MotionValidator(space), world(shared) {}
    bool checkMotion(const ob::State* from, const ob::State* to) const override {
        return world.clear(from, to);
    }
    bool checkMotion(const ob::State* from, const ob::State* to,
                     std::pair<ob::State*, double>& last) const override {
        bool clear = world.clear(from, to);
        if (!clear && last.first) si_->copyState(last.first, from);
        if (!clear) last.second = 0;
        return clear;
    }
};

/// The cost of a plan is its clearance at the tightest motion, negated.
struct Clearance : ob::MinimaxObjective {
    const World& world;
    Clearance(const ob::SpaceInformationPtr& space, const World& shared)
        : MinimaxObjective(space), world(shared) {}
    ob::Cost stateCost(const ob::State* state) const override {
        return ob::Cost(-world.clearance(state));
    }
    ob::Cost motionCost(const ob::State* from, const ob::State* to) const override {
        return ob::Cost(-world.clearance(from, to));
    }
    ob::Cost identityCost() const override {
        return ob::Cost(-std::numeric_limits<double>::infinity());
    }
    ob::Cost infiniteCost() const override {
        return ob::Cost(std::numeric_limits<double>::infinity());
    }
};

std::shared_ptr<ob::RealVectorStateSpace> space_of(const clearmap::Frame& frame) {
    auto space = std::make_shared<ob::RealVectorStateSpace>(2);
    ob::RealVectorBounds bounds(2);
    bounds.setLow(0, frame.origin_x);
    bounds.setHigh(0, frame.origin_x + frame.width * frame.resolution);
    bounds.setLow(1, frame.origin_y);
    bounds.setHigh(1, frame.origin_y + frame.height * frame.resolution);
    space->setBounds(bounds);
    return space;
}

/// The best plan that four planners find, as points.
std::vector<clearmap::Point> plan(const World& world, clearmap::Point start, clearmap::Point goal) {
    auto space = space_of(world.frame);
    auto about = std::make_shared<ob::SpaceInformation>(space);
    about->setStateValidityChecker(std::make_shared<Valid>(about, world));
    about->setMotionValidator(std::make_shared<ValidMotion>(about, world));
    about->setup();
    ob::ScopedState<> from(space), to(space);
    from[0] = start.x, from[1] = start.y, to[0] = goal.x, to[1] = goal.y;
    auto problem = std::make_shared<ob::ProblemDefinition>(about);
    problem->setStartAndGoalStates(from, to);
    problem->setOptimizationObjective(std::make_shared<Clearance>(about, world));

    ompl::tools::ParallelPlan together(problem);
    for (int i = 0; i < 4; ++i) together.addPlanner(std::make_shared<og::RRTstar>(about));
    std::atomic<unsigned long> turns{0};
    ob::PlannerTerminationCondition enough([&] { return ++turns > 8000; });
    if (together.solve(enough, 4, 4, false) != ob::PlannerStatus::EXACT_SOLUTION)
        throw clearmap::Error("no plan was found");
    std::vector<clearmap::Point> points;
    for (const ob::State* state : problem->getSolutionPath()->as<og::PathGeometric>()->getStates())
        points.push_back(World::point(state));
    return points;
}

int run(char** words) {
    std::ifstream file(words[1], std::ios::binary);
    std::stringstream image;
    image << file.rdbuf();
    auto number = [&](int i) { return read<double>(words[i]); };
    const World world(clearmap::Map::of_pbm(image.str()), number(2), {number(3), number(4)},
                      number(5));
    auto points = plan(world, {number(6), number(7)}, {number(8), number(9)});
    for (clearmap::Point p : points)
        std::cout << p.x << ' ' << p.y << ", "
                  << down(world.field.free_metres(world.frame, p.x, p.y))
                  << " m free in any case\n";
    double least = world.map.clearance(*world.frame.staircase(points));
    std::cout << "the plan keeps " << down(world.frame.free_metres(least)) << " m\n";
    return 0;
}

int main(int count, char** words) {
    if (count != 10) return 2;
    ompl::msg::noOutputHandler();
    ompl::RNG::setSeed(1);
    try {
        return run(words);
    } catch (const std::exception& fault) {
        std::cerr << "ompl_plan_in_process: " << fault.what() << '\n';
        return 1;
    }
}
