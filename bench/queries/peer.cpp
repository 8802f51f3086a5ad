// Boxes by probe, walk and crawl in C++, and by a plain scan of all vertices.
#include "block.hpp"
#include <algorithm>
#include <array>
#include <chrono>
#include <cstdint>
#include <cstdio>
#include <cstdlib>
#include <numeric>
#include <vector>

struct Box {
    int32_t lo[3], hi[3];

    bool has(const Point &p) const {
        for (int a = 0; a < 3; a++)
            if (p.c[a] < lo[a] || hi[a] < p.c[a]) return false;
        return true;
    }

    uint64_t dist2(const Point &p) const {
        uint64_t sum = 0;
        for (int a = 0; a < 3; a++) {
            int64_t below = int64_t(lo[a]) - p.c[a], above = int64_t(p.c[a]) - hi[a];
            int64_t gap = std::max<int64_t>(std::max(below, above), 0);
            sum += uint64_t(gap * gap);
        }
        return sum;
    }
};

// Points, the surface, and the neighbours of all points in one list.
struct Mesh {
    std::vector<Point> points;
    Neighbours neighbours;
    std::vector<uint32_t> surface;

    explicit Mesh(uint32_t n) : points(block_points(n)), neighbours(points.size(), block_cells(n)) {
        const int32_t end = 16 * int32_t(n);
        for (uint32_t v = 0; v < points.size(); v++)
            if (std::any_of(points[v].c, points[v].c + 3, [=](int32_t c) { return c == 0 || c == end; })) surface.push_back(v);
    }

    const uint32_t *first(uint32_t v) const { return neighbours.near.data() + neighbours.starts[v]; }
    const uint32_t *last(uint32_t v) const { return neighbours.near.data() + neighbours.starts[v + 1]; }
};

struct Marks {
    std::vector<uint32_t> numbers;
    uint32_t round = 0;
};

static uint64_t reads;

// The nearest of the list to the box, by distance and then by number.
template <class It> static std::pair<uint64_t, uint32_t> nearest(const Mesh &mesh, const Box &box, It from, It to) {
    std::pair<uint64_t, uint32_t> best{UINT64_MAX, 0};
    for (; from != to; ++from) best = std::min(best, {box.dist2(mesh.points[*from]), *from});
    return best;
}

static void crawl(const Mesh &mesh, const Box &box, Marks &marks, std::vector<uint32_t> &found) {
    marks.round++;
    for (uint32_t v : found) marks.numbers[v] = marks.round;
    for (size_t at = 0; at < found.size(); at++)
        for (const uint32_t *w = mesh.first(found[at]); w != mesh.last(found[at]); ++w)
            if (marks.numbers[*w] != marks.round) {
                reads++;
                if (box.has(mesh.points[*w])) {
                    marks.numbers[*w] = marks.round;
                    found.push_back(*w);
                }
            }
    std::sort(found.begin(), found.end());
}

static std::vector<uint32_t> scan(const Mesh &mesh, const Box &box) {
    std::vector<uint32_t> found;
    for (uint32_t v = 0; v < mesh.points.size(); v++)
        if (mesh.first(v) != mesh.last(v)) {
            reads++;
            if (box.has(mesh.points[v])) found.push_back(v);
        }
    return found;
}

static std::vector<uint32_t> answer(const Mesh &mesh, const Box &box, Marks &marks) {
    std::vector<uint32_t> found;
    std::pair<uint64_t, uint32_t> best{UINT64_MAX, 0};
    for (uint32_t v : mesh.surface) {
        uint64_t d = box.dist2(mesh.points[v]);
        if (d == 0) found.push_back(v);
        if (d < best.first) best = {d, v};
    }
    reads += mesh.surface.size();
    if (found.empty()) {
        if (mesh.surface.empty()) return scan(mesh, box);
        reads++;
        while (best.first > 0) {
            auto next = nearest(mesh, box, mesh.first(best.second), mesh.last(best.second));
            reads += mesh.last(best.second) - mesh.first(best.second);
            if (next.first >= best.first) return scan(mesh, box);
            best = next;
        }
        found.push_back(best.second);
    }
    crawl(mesh, box, marks, found);
    return found;
}

template <class F> static double micros(int times, F f) {
    double least = 1e30;
    for (int i = 0; i < times; i++) {
        auto start = std::chrono::steady_clock::now();
        f();
        auto end = std::chrono::steady_clock::now();
        least = std::min(least, std::chrono::duration<double, std::micro>(end - start).count());
    }
    return least;
}

static void time_box(const Mesh &mesh, Marks &marks, int32_t lo, int32_t hi) {
    Box box{{lo, lo, lo}, {hi, hi, hi}};
    reads = 0;
    size_t count = answer(mesh, box, marks).size();
    uint64_t each = reads;
    double way = micros(20, [&] { answer(mesh, box, marks); });
    double all = micros(5, [&] { scan(mesh, box); });
    printf("c++      box %d %d count %zu: answer %.1f us, %llu reads; scan %.1f us\n", lo, hi, count, way,
           (unsigned long long)each, all);
}

int main(int, char **argv) {
    int32_t n = atoi(argv[1]);
    Mesh mesh{uint32_t(n)};
    Marks marks;
    marks.numbers.resize(mesh.points.size());
    int32_t middle = n / 2 * 16;
    for (int32_t side : {4, n / 10, (n * 43 + 100) / 200}) {
        time_box(mesh, marks, 0, side * 16 - 8);
        time_box(mesh, marks, middle, middle + side * 16 - 8);
    }
}
