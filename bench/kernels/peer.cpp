// The three motions as plain loops in C++.
#include "block.hpp"
#include <algorithm>
#include <array>
#include <chrono>
#include <cstdint>
#include <cstdio>
#include <cstdlib>
#include <vector>

constexpr int64_t most = int64_t(1) << 30;

int32_t held(int64_t c) { return int32_t(std::clamp(c, -most, most)); }

int64_t floor_div(int64_t a, int64_t b) {
    int64_t q = a / b;
    return a % b < 0 ? q - 1 : q;
}

struct Block {
    std::vector<Point> points;
    Neighbours neighbours;

    explicit Block(uint32_t n) : points(block_points(n)), neighbours(points.size(), block_cells(n)) {}
};

std::vector<Point> shift(const Block &block, uint32_t) {
    std::vector<Point> moved;
    moved.reserve(block.points.size());
    for (const Point &p : block.points)
        moved.push_back({{held(int64_t(p.c[0]) + 3), held(int64_t(p.c[1]) - 5), held(int64_t(p.c[2]) + 7)}});
    return moved;
}

int32_t shaken(uint64_t seed, uint64_t amp, uint64_t step, uint64_t v, uint64_t axis, int32_t c) {
    const uint64_t h = (seed + 40503 * v + 30011 * step + 9973 * axis) % 65536;
    const uint64_t t = h * (h + 1) / 2 % 65536;
    return held(int64_t(c) + int64_t(t % (2 * amp + 1)) - int64_t(amp));
}

std::vector<Point> shake(const Block &block, uint32_t step) {
    std::vector<Point> moved;
    moved.reserve(block.points.size());
    for (size_t v = 0; v < block.points.size(); v++) {
        const Point &p = block.points[v];
        moved.push_back({{shaken(7, 3, step, v, 0, p.c[0]), shaken(7, 3, step, v, 1, p.c[1]), shaken(7, 3, step, v, 2, p.c[2])}});
    }
    return moved;
}

std::vector<Point> relax(const Block &block, uint32_t) {
    std::vector<Point> moved;
    moved.reserve(block.points.size());
    for (size_t v = 0; v < block.points.size(); v++) {
        const size_t start = block.neighbours.starts[v], end = block.neighbours.starts[v + 1];
        if (start == end) {
            moved.push_back(block.points[v]);
            continue;
        }
        int64_t x = 0, y = 0, z = 0;
        for (size_t i = start; i < end; i++) {
            const Point &p = block.points[block.neighbours.near[i]];
            x += p.c[0];
            y += p.c[1];
            z += p.c[2];
        }
        const int64_t count = int64_t(end - start);
        moved.push_back({{held(floor_div(x, count)), held(floor_div(y, count)), held(floor_div(z, count))}});
    }
    return moved;
}

int64_t sum_of(const std::vector<Point> &points) {
    int64_t sum = 0;
    for (const Point &p : points) sum += int64_t(p.c[0]) + 3 * int64_t(p.c[1]) + 7 * int64_t(p.c[2]);
    return sum;
}

template <class Motion> void time_motion(const char *name, uint32_t n, const Block &block, Motion motion) {
    using Clock = std::chrono::steady_clock;
    int64_t best = INT64_MAX;
    int64_t sum = 0;
    for (int round = 0; round < 10; round++) {
        const auto start = Clock::now();
        const auto moved = motion(block, 1);
        const auto time = std::chrono::duration_cast<std::chrono::microseconds>(Clock::now() - start).count();
        best = std::min<int64_t>(best, time);
        sum = sum_of(moved);
    }
    std::printf("c++     %s n %u alone      %lld us, sum %lld\n", name, n, (long long)best, (long long)sum);
}

int main(int count, char **words) {
    const uint32_t n = count > 1 ? uint32_t(std::atoi(words[1])) : 60;
    const Block block(n);
    time_motion("shift", n, block, shift);
    time_motion("shake", n, block, shake);
    time_motion("relax", n, block, relax);
}
