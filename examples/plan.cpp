// How far a plan in metres keeps from the obstacles of a served map of this size:
// plan PORT WIDTH HEIGHT RESOLUTION ORIGIN_X ORIGIN_Y, with a point X Y on each line of standard
// input. Build: g++ -std=c++17 -I clients/cpp -o plan examples/plan.cpp
#include <clearmap.hpp>

#include <iomanip>
#include <iostream>
#include <sstream>

/// The number that a word is as a whole: "1/20" and "0,05" are none.
template <class Number>
Number read(const std::string& word) {
    std::istringstream text(word);
    Number found{};
    if (!(text >> std::noskipws >> found) || text.peek() != EOF)
        throw clearmap::Error("'" + word + "' is no number");
    return found;
}

/// Metres, rounded down: what is told is there.
double down(double metres) { return std::floor(metres * 1e6) / 1e6; }

std::vector<clearmap::Point> read_plan(std::istream& input) {
    std::vector<clearmap::Point> plan;
    for (std::string line, more; std::getline(input, line);) {
        std::istringstream numbers(line);
        clearmap::Point point;
        if (line.find_first_not_of(" \t\r") == std::string::npos) continue;
        if (!(numbers >> point.x >> point.y) || numbers >> more)
            throw clearmap::Error("'" + line + "' isn't X Y");
        plan.push_back(point);
    }
    return plan;
}

void run(char** words) {
    const clearmap::Frame frame{read<int>(words[2]), read<int>(words[3]), read<double>(words[4]),
                                read<double>(words[5]), read<double>(words[6])};
    const auto path = frame.staircase(read_plan(std::cin));
    if (!path) throw clearmap::Error("the plan has no point, or one outside the map");
    clearmap::Client client(read<int>(words[1]), {frame.size()});
    clearmap::Pinned map = client.pin();
    const double tightest = map.clearance(*path);  // in cells, from middle to middle
    std::cout << std::fixed << std::setprecision(6) << down(frame.free_metres(tightest))
              << " m free in any case, " << down(frame.metres(tightest))
              << " m from middle to middle\n";
    double cells;
    const bool valid = map.is_valid(path->front().x, path->front().y, cells);
    std::cout << "the start is " << (valid ? "free" : "an obstacle") << ", with "
              << down(frame.free_metres(cells)) << " m in any case\n";
}

int main(int count, char** words) {
    if (count != 7) return 2;
    try {
        run(words);
    } catch (const std::exception& fault) {
        std::cerr << fault.what() << '\n';
        return 1;
    }
}
