// A field in C++ that follows two maps by turns, for library_many.py: SIDE ROUNDS ONE TWO, files of
// a byte per cell. Prints the least microseconds of the processor for an update to the second map,
// back to the first, and for a new field, each by one thread.
#include "clearmap_map.hpp"

#include <cstdio>
#include <cstdlib>
#include <ctime>
#include <fstream>
#include <iterator>

using namespace clearmap;

static double now() {
    timespec time{};
    clock_gettime(CLOCK_PROCESS_CPUTIME_ID, &time);
    return 1e6 * static_cast<double>(time.tv_sec) + 1e-3 * static_cast<double>(time.tv_nsec);
}

static Map map_in(const char* name, int side) {
    std::ifstream file(name, std::ios::binary);
    const std::vector<char> cells{std::istreambuf_iterator<char>(file), {}};
    return Map::of_bytes(cells, {side, side}, {1, 255}, Rows::downwards);
}

int main(int, char** words) {
    const int side = std::atoi(words[1]), rounds = std::atoi(words[2]);
    const Map one = map_in(words[3], side), two = map_in(words[4], side);
    Field field(one, Metric::euclid2, 1);
    double there = 1e18, back = 1e18, made = 1e18;
    for (int k = 0; k < rounds; ++k) {
        const double start = now();
        field.update(two);
        const double middle = now();
        field.update(one);
        there = std::min(there, middle - start), back = std::min(back, now() - middle);
    }
    for (int k = 0; k < 3; ++k) {
        const double start = now();
        const Field anew(one, Metric::euclid2, 1);
        made = std::min(made, now() - start);
    }
    std::printf("%.1f %.1f %.1f\n", there, back, made);
}
