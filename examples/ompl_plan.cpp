// A plan by OMPL's RRT* over a served map: ompl_plan PORT WIDTH HEIGHT RESOLUTION ORIGIN_X ORIGIN_Y
// RADIUS FROM_X FROM_Y TO_X TO_Y, all but the size in metres. A state and a motion are valid where
// a pinned CLEAROF says that a round robot has room, and what is made large is what the plan has
// free in any case: never more than its distance from an obstacle. It prints that of each point of
// the plan, and then of the whole plan by PATH.
// Build: g++ -std=c++17 -I clients/cpp $(pkg-config --cflags ompl) -o ompl_plan
//     examples/ompl_plan.cpp -lompl
#include <clearmap.hpp>
#include <ompl/base/objectives/MinimaxObjective.h>
#include <ompl/base/spaces/RealVectorStateSpace.h>
#include <ompl/geometric/SimpleSetup.h>
#include <ompl/geometric/planners/rrt/RRTstar.h>
#include <ompl/util/RandomNumbers.h>

#include <iostream>
#include <sstream>

namespace ob = ompl::base;
namespace og = ompl::geometric;

/// The number that a word is as a whole: "1/20" and "0,05" are none.
template <class Number>
Number read(const std::string& word) {
    std::istringstream text(word);
    Number found{};
    if (!(text >> std::noskipws >> found) || text.peek() != EOF)
        throw clearmap::Error("'" + word + "' is no number");
    return found;
}

/// Metres, rounded down: what is told is there.
double down(double metres) { return std::floor(metres * 1e6) / 1e6; }

/// The pinned map as a planner asks it, in metres.
struct Map {
    clearmap::Pinned& pinned;
    clearmap::Frame frame;
    std::uint32_t needed;

    static clearmap::Point point(const ob::State* state) {
        const auto* xy = state->as<ob::RealVectorStateSpace::StateType>();
        return {(*xy)[0], (*xy)[1]};
    }
    std::optional<clearmap::Path> cells(const ob::State* from, const ob::State* to) const { return frame.staircase({point(from), point(to)}); }
    bool clear(const ob::State* from, const ob::State* to) const {
        auto path = cells(from, to);
        return path && path->size() <= 1000 && pinned.is_clear(needed, *path);
    }
    double clearance(const ob::State* from, const ob::State* to) const {
        auto path = cells(from, to);
        return path ? frame.free_metres(pinned.clearance(*path)) : 0;
    }
};

struct Valid : ob::StateValidityChecker {
    Map map;
    Valid(const ob::SpaceInformationPtr& space, Map map) : StateValidityChecker(space), map(map) {}
    bool isValid(const ob::State* state) const override { return map.clear(state, state); }
    double clearance(const ob::State* state) const override { return map.clearance(state, state); }
};

/// A motion is one query of a path, not many of states.
struct ValidMotion : ob::MotionValidator {
    Map map;
    ValidMotion(const ob::SpaceInformationPtr& space, Map map) : MotionValidator(space), map(map) {}
    bool checkMotion(const ob::State* from, const ob::State* to) const override { return map.clear(from, to); }
    bool checkMotion(const ob::State* from, const ob::State* to, std::pair<ob::State*, double>& last) const override {
        bool clear = map.clear(from, to);
        if (!clear && last.first) si_->copyState(last.first, from);
        if (!clear) last.second = 0;
        return clear;
    }
};

/// The cost of a plan is its clearance at the tightest motion, negated.
struct Clearance : ob::MinimaxObjective {
    Map map;
    Clearance(const ob::SpaceInformationPtr& space, Map map) : MinimaxObjective(space), map(map) {}
    ob::Cost stateCost(const ob::State* state) const override { return ob::Cost(-map.clearance(state, state)); }
    ob::Cost motionCost(const ob::State* from, const ob::State* to) const override { return ob::Cost(-map.clearance(from, to)); }
    ob::Cost identityCost() const override { return ob::Cost(-std::numeric_limits<double>::infinity()); }
    ob::Cost infiniteCost() const override { return ob::Cost(std::numeric_limits<double>::infinity()); }
};

int plan(char** words) {
    clearmap::Frame frame{read<int>(words[2]), read<int>(words[3]), read<double>(words[4]),
                          read<double>(words[5]), read<double>(words[6])};
    const std::uint32_t needed = frame.clear_distance(read<double>(words[7]));
    const clearmap::Point start{read<double>(words[8]), read<double>(words[9])};
    const clearmap::Point goal{read<double>(words[10]), read<double>(words[11])};
    clearmap::Client client(read<int>(words[1]), {frame.size()});
    clearmap::Pinned pinned = client.pin();
    Map map{pinned, frame, needed};

    auto space = std::make_shared<ob::RealVectorStateSpace>(2);
    ob::RealVectorBounds bounds(2);
    bounds.setLow(0, frame.origin_x);
    bounds.setHigh(0, frame.origin_x + frame.width * frame.resolution);
    bounds.setLow(1, frame.origin_y);
    bounds.setHigh(1, frame.origin_y + frame.height * frame.resolution);
    space->setBounds(bounds);
    og::SimpleSetup setup(space);
    auto about = setup.getSpaceInformation();
    setup.setStateValidityChecker(std::make_shared<Valid>(about, map));
    about->setMotionValidator(std::make_shared<ValidMotion>(about, map));
    setup.setOptimizationObjective(std::make_shared<Clearance>(about, map));
    setup.setPlanner(std::make_shared<og::RRTstar>(about));
    ob::ScopedState<> from(space), to(space);
    from[0] = start.x, from[1] = start.y, to[0] = goal.x, to[1] = goal.y;
    setup.setStartAndGoalStates(from, to);

    unsigned long turns = 0;
    if (setup.solve(ob::PlannerTerminationCondition([&] { return ++turns > 2000; })) != ob::PlannerStatus::EXACT_SOLUTION) throw clearmap::Error("no plan was found");
    std::vector<clearmap::Point> points;
    std::vector<clearmap::Cell> cells;
    for (const ob::State* state : setup.getSolutionPath().getStates()) {
        points.push_back(Map::point(state));
        cells.push_back(*frame.cell(points.back().x, points.back().y));
    }
    std::vector<double> near = pinned.clearances(cells);  // all in one write
    for (std::size_t i = 0; i < points.size(); ++i)
        std::cout << points[i].x << ' ' << points[i].y << ", " << down(frame.free_metres(near[i]))
                  << " m free in any case\n";
    const double tightest = pinned.clearance(*frame.staircase(points));
    std::cout << "the plan keeps " << down(frame.free_metres(tightest)) << " m, on version "
              << pinned.version() << '\n';
    return 0;
}

int main(int count, char** words) {
    if (count != 12) return 2;
    ompl::msg::noOutputHandler();
    ompl::RNG::setSeed(1);
    try {
        return plan(words);
    } catch (const std::exception& fault) {
        std::cerr << "ompl_plan: " << fault.what() << '\n';
        return 1;
    }
}
