// The block of n cubes a side in C++: its cells, six a cube, and its points, 16 apart.
#pragma once
#include <algorithm>
#include <array>
#include <cstdint>
#include <vector>

using Cell = std::array<uint32_t, 4>;

struct Point {
    int32_t c[3];
};

inline std::vector<Cell> block_cells(uint32_t n) {
    std::vector<Cell> cells;
    const uint32_t y = n + 1, z = y * y;
    const uint32_t steps[6][2] = {{1, y}, {1, z}, {y, 1}, {y, z}, {z, 1}, {z, y}};
    for (uint32_t k = 0; k < n; k++)
        for (uint32_t j = 0; j < n; j++)
            for (uint32_t i = 0; i < n; i++) {
                const uint32_t p = i + y * j + z * k, q = p + 1 + y + z;
                for (auto &s : steps) cells.push_back({p, p + s[0], p + s[0] + s[1], q});
            }
    return cells;
}

inline std::vector<Point> block_points(uint32_t n) {
    std::vector<Point> points;
    for (uint32_t k = 0; k <= n; k++)
        for (uint32_t j = 0; j <= n; j++)
            for (uint32_t i = 0; i <= n; i++) points.push_back({{int32_t(16 * i), int32_t(16 * j), int32_t(16 * k)}});
    return points;
}

// The neighbours of all points one after the other, and where those of each begin.
struct Neighbours {
    std::vector<size_t> starts;
    std::vector<uint32_t> near;

    Neighbours(size_t points, const std::vector<Cell> &cells) {
        std::vector<std::vector<uint32_t>> rows(points);
        for (const Cell &cell : cells)
            for (uint32_t v : cell)
                for (uint32_t w : cell)
                    if (v != w) rows[v].push_back(w);
        starts.push_back(0);
        for (auto &row : rows) {
            std::sort(row.begin(), row.end());
            row.erase(std::unique(row.begin(), row.end()), row.end());
            near.insert(near.end(), row.begin(), row.end());
            starts.push_back(near.size());
        }
    }
};
