// Answers of boxes in C++ by looking at every point, and by a grid that is filled anew at each step.
#pragma once
#include "peer_answers.hpp"
#include <cmath>

// Coordinates axis by axis, and how many cells each point has.
struct Scan : Way {
    Axes at;
    List<Cell> cells;
    std::vector<uint32_t> uses;
    size_t unused = 0; // points that no cell has

    Scan(Mesh &&mesh) : cells(std::move(mesh.cells)), uses(mesh.points.size()) {
        at.resize(mesh.points.size());
        for (size_t v = 0; v < at.size(); v++)
            for (size_t a = 0; a < 3; a++) at.of[a][v] = mesh.points[v].c[a];
        for (const Cell &cell : cells)
            for (uint32_t v : cell) uses[v]++;
        unused = size_t(std::count(uses.begin(), uses.end(), 0));
    }

    void use(const Cell &cell, uint32_t by) {
        for (uint32_t v : cell) {
            unused -= uses[v] == 0;
            uses[v] += by;
            unused += uses[v] == 0;
        }
    }
    void add(const Cell &cell) {
        cells.push_back(cell);
        use(cell, 1);
    }
    void edit(const Edit &edit) override {
        const uint32_t n = uint32_t(at.size());
        if (edit.kind == 'p' || edit.kind == 's') {
            for (size_t a = 0; a < 3; a++) at.of[a].push_back(edit.place.c[a]);
            uses.push_back(0);
            unused++;
        }
        if (edit.kind == 'a') add(edit.cell);
        if (edit.kind == 'r' || edit.kind == 's') {
            const Cell cell = std::exchange(cells[edit.cell[0]], {GONE, GONE, GONE, GONE});
            use(cell, UINT32_MAX);
            for (size_t k = 0; k < 4 && edit.kind == 's'; k++) {
                Cell part = cell;
                part[k] = n;
                add(part);
            }
        }
    }
    void move(const Plan &plan, uint32_t step) override {
        if (plan.motion == Motion::Relax) std::exit(2); // there are no neighbours
        if (plan.motion == Motion::Turn)
            for (size_t v = 0; v < at.size(); v++) turn(at.of[0][v], at.of[1][v], at.of[2][v], plan.value[0]);
        for (uint32_t a = 0; a < 3; a++) {
            if (plan.motion == Motion::Shake) shake<1>(at.of[a].data(), at.size(), plan, step, a, threads);
            if (plan.motion == Motion::Shift || plan.motion == Motion::Pull)
                for (int32_t &c : at.of[a]) c = moved(c, plan, a);
        }
    }
    void drop_unused(std::vector<uint32_t> &found) const {
        if (unused)
            found.erase(std::remove_if(found.begin(), found.end(), [&](uint32_t v) { return uses[v] == 0; }),
                        found.end());
    }
    const char *answer(const Box &box, std::vector<uint32_t> &found, Marks &) const override {
        found.clear();
        at.each(box, [&](size_t v) { found.push_back(uint32_t(v)); });
        drop_unused(found);
        return "scan";
    }
};

// The points sorted into a grid of about eight a cell.
struct Grid : Scan {
    int32_t low[3], high[3];
    uint32_t side[3];
    double scale[3];
    std::vector<uint32_t> starts, cell_of, order;
    Axes sorted;

    using Scan::Scan;

    uint32_t cut(size_t a, int32_t c) const {
        return std::min(side[a] - 1, uint32_t(double(int64_t(c) - low[a]) * scale[a]));
    }

    void look() override {
        double volume = 1;
        for (size_t a = 0; a < 3; a++) {
            const auto ends = std::minmax_element(at.of[a].begin(), at.of[a].end());
            low[a] = *ends.first, high[a] = *ends.second;
            volume *= double(high[a]) - low[a] + 1;
        }
        const double edge = std::cbrt(volume * 8 / double(at.size()));
        size_t count = 1;
        for (size_t a = 0; a < 3; a++) {
            const double width = double(high[a]) - low[a] + 1;
            side[a] = uint32_t(std::clamp(width / edge, 1.0, 1024.0));
            scale[a] = side[a] / width;
            count *= side[a];
        }
        const size_t n = at.size();
        starts.assign(count + 1, 0);
        cell_of.resize(n);
        order.resize(n);
        sorted.resize(n);
#pragma omp parallel for simd num_threads(threads)
        for (size_t v = 0; v < n; v++)
            cell_of[v] = (cut(2, at.of[2][v]) * side[1] + cut(1, at.of[1][v])) * side[0] + cut(0, at.of[0][v]);
        for (uint32_t c : cell_of) starts[c + 1]++;
        for (size_t c = 0; c < count; c++) starts[c + 1] += starts[c];
        std::vector<uint32_t> next(starts.begin(), starts.end() - 1);
        for (uint32_t v = 0; v < n; v++) {
            const uint32_t k = next[cell_of[v]]++;
            order[k] = v;
            for (size_t a = 0; a < 3; a++) sorted.of[a][k] = at.of[a][v];
        }
    }

    const char *answer(const Box &box, std::vector<uint32_t> &found, Marks &) const override {
        found.clear();
        uint32_t from[3], to[3];
        for (size_t a = 0; a < 3; a++) {
            if (box.hi[a] < low[a] || high[a] < box.lo[a]) return "scan";
            from[a] = cut(a, std::max(box.lo[a], low[a]));
            to[a] = cut(a, std::min(box.hi[a], high[a]));
        }
        auto try_each = [&](uint32_t k, uint32_t end) {
            for (; k < end; k++)
                if (box.has({{sorted.of[0][k], sorted.of[1][k], sorted.of[2][k], 0}})) found.push_back(order[k]);
        };
        for (uint32_t z = from[2]; z <= to[2]; z++)
            for (uint32_t y = from[1]; y <= to[1]; y++) {
                const uint32_t *row = &starts[(size_t(z) * side[1] + y) * side[0]];
                const bool edge = z == from[2] || z == to[2] || y == from[1] || y == to[1] || to[0] - from[0] < 2;
                try_each(row[from[0]], row[edge ? to[0] + 1 : from[0] + 1]);
                if (!edge) {
                    found.insert(found.end(), &order[row[from[0] + 1]], &order[0] + row[to[0]]);
                    try_each(row[to[0]], row[to[0] + 1]);
                }
            }
        drop_unused(found);
        std::sort(found.begin(), found.end());
        return "scan";
    }
};
