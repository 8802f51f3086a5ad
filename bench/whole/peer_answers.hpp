// Motions in C++, and answers of boxes by the surface and the neighbours of a mesh that is edited and moves.
#pragma once
#include "peer_mesh.hpp"

static int32_t held(int64_t c) { return int32_t(std::clamp<int64_t>(c, -FAR, FAR)); }
static int64_t floor_of(int64_t a, int64_t b) { return a / b - (a % b < 0); }

// The shake of coordinates that stand one after the other: of one axis, or of all with a fourth (LANES 4).
template <uint32_t LANES>
static void shake(int32_t *at, size_t count, const Plan &plan, uint32_t step, uint32_t axis, int threads) {
    const uint32_t base = uint32_t(plan.value[0]) + 30011 * step, amp = uint32_t(plan.value[1]), width = 2 * amp + 1;
    const float part = 1.0f / float(width);
#pragma omp parallel for simd schedule(static) num_threads(threads)
    for (uint32_t i = 0; i < uint32_t(count); i++) {
        const uint32_t h = (base + 40503 * (i / LANES) + 9973 * (axis + i % LANES)) & 0xffff;
        const int32_t t = int32_t((h * (h + 1)) >> 1 & 0xffff);
        // the half keeps the quotient away from whole numbers, so that rounding can't lift it over one
        const int32_t by = t - int32_t((float(t) + 0.5f) * part) * int32_t(width) - int32_t(amp);
        at[i] = std::min(std::max(at[i] + by, -FAR), FAR);
    }
}

static void turn(int32_t &x, int32_t &y, int32_t &z, int32_t axis) {
    const int32_t a = x, b = y, c = z;
    if (axis == 0) y = -c, z = b;
    else if (axis == 1) x = c, z = -a;
    else x = -b, y = a;
}

static int32_t moved(int32_t c, const Plan &plan, size_t a) {
    if (plan.motion == Motion::Shift) return held(int64_t(c) + plan.value[a]);
    return held(c + floor_of((int64_t(plan.value[a]) - c) * plan.value[3], plan.value[4]));
}

// Which of 64 points are in the box.
static uint64_t inside(const int32_t *x, const int32_t *y, const int32_t *z, const Box &box) {
    alignas(64) uint8_t hit[64];
    for (size_t j = 0; j < 64; j++)
        hit[j] = uint8_t((box.lo[0] <= x[j]) & (x[j] <= box.hi[0]) & (box.lo[1] <= y[j]) & (y[j] <= box.hi[1]) &
                         (box.lo[2] <= z[j]) & (z[j] <= box.hi[2]));
    uint64_t bits = 0;
    for (size_t k = 0; k < 8; k++) {
        uint64_t eight;
        std::memcpy(&eight, hit + 8 * k, 8);
        bits |= (eight * 0x0102040810204080 >> 56) << 8 * k;
    }
    return bits;
}

struct Axes {
    List<int32_t> of[3];

    size_t size() const { return of[0].size(); }
    void resize(size_t count) {
        for (auto &axis : of) axis.resize(count);
    }
    // Calls `take` with each point in the box, ascending.
    template <class T> void each(const Box &box, T take) const {
        for (size_t i = 0; i < size(); i += 64) {
            uint64_t bits = inside(&of[0][0] + i, &of[1][0] + i, &of[2][0] + i, box);
            if (size() - i < 64) bits &= (uint64_t(1) << (size() - i)) - 1;
            for (; bits; bits &= bits - 1) take(i + size_t(__builtin_ctzll(bits)));
        }
    }
};

// What one thread needs while it answers.
struct Marks {
    std::vector<uint64_t> seen, in;
};

struct Way {
    int threads = 1;
    virtual ~Way() {}
    virtual void edit(const Edit &edit) = 0;
    virtual void move(const Plan &plan, uint32_t step) = 0;
    virtual void look() {} // after a step that is asked about
    virtual const char *answer(const Box &box, std::vector<uint32_t> &found, Marks &marks) const = 0;
};

struct Octo : Way {
    List<Place> points, before;
    List<Cell> cells;
    Tables tables{cells};
    bool has_tables = false;
    std::vector<uint32_t> surface;
    Axes at; // the places of the surface

    Octo(Mesh &&mesh) : points(std::move(mesh.points)), cells(std::move(mesh.cells)) {}
    void build() {
        tables.build(points.size(), threads);
        has_tables = true;
    }

    void edit(const Edit &edit) override {
        const uint32_t n = uint32_t(points.size());
        if (edit.kind == 'p' || edit.kind == 's') points.push_back(edit.place);
        if (has_tables) {
            if (edit.kind == 'p') tables.point();
            else if (edit.kind == 's') tables.split(edit.cell[0], n);
            else if (edit.kind == 'a') tables.add(edit.cell);
            else tables.remove(edit.cell[0]);
            return;
        }
        if (edit.kind == 'a') cells.push_back(edit.cell);
        if (edit.kind == 'r' || edit.kind == 's') {
            const Cell cell = std::exchange(cells[edit.cell[0]], {GONE, GONE, GONE, GONE});
            for (size_t k = 0; k < 4 && edit.kind == 's'; k++) {
                cells.push_back(cell);
                cells.back()[k] = n;
            }
        }
    }

    void move(const Plan &plan, uint32_t step) override {
        if (plan.motion == Motion::Shake) {
            shake<4>(points[0].c, 4 * points.size(), plan, step, 0, threads);
        } else if (plan.motion == Motion::Relax) {
            relax();
        } else if (plan.motion != Motion::Stay) {
#pragma omp parallel for schedule(static) num_threads(threads)
            for (Place &p : points) {
                if (plan.motion == Motion::Turn) turn(p.c[0], p.c[1], p.c[2], plan.value[0]);
                else
                    for (size_t a = 0; a < 3; a++) p.c[a] = moved(p.c[a], plan, a);
            }
        }
    }

    void relax() {
        before.resize(points.size());
        before.swap(points);
#pragma omp parallel for schedule(static) num_threads(threads)
        for (uint32_t v = 0; v < points.size(); v++) {
            int64_t sum[3] = {0, 0, 0};
            const int64_t n = tables.near.rows[v].size;
            for (const uint32_t *w = tables.near.begin(v); w != tables.near.end(v); w++)
                for (size_t a = 0; a < 3; a++) sum[a] += before[*w].c[a];
            points[v] = before[v];
            for (size_t a = 0; a < 3 && n > 0; a++) points[v].c[a] = int32_t(floor_of(sum[a], n));
        }
    }

    void look() override {
        if (tables.changed) {
            surface.clear();
            for (uint32_t v = 0; v < points.size(); v++)
                if (tables.singles[v]) surface.push_back(v);
            tables.changed = false;
        }
        at.resize(surface.size());
        for (size_t i = 0; i < surface.size(); i++)
            for (size_t a = 0; a < 3; a++) at.of[a][i] = points[surface[i]].c[a];
    }

    void scan(const Box &box, std::vector<uint32_t> &found) const {
        for (uint32_t v = 0; v < points.size(); v++)
            if (box.has(points[v]) && tables.cells_at.rows[v].size) found.push_back(v);
    }

    // The vertex of the surface that is nearest to the box, and of these the least.
    uint32_t nearest(const Box &box, uint64_t &least) const {
        least = UINT64_MAX;
        uint32_t best = 0;
        for (size_t i = 0; i < surface.size(); i += 64) {
            const size_t count = std::min<size_t>(64, surface.size() - i);
            const int32_t *x = &at.of[0][i], *y = &at.of[1][i], *z = &at.of[2][i];
            alignas(64) uint64_t d[64];
            uint64_t low = UINT64_MAX;
            for (size_t j = 0; j < count; j++) d[j] = box.dist2(x[j], y[j], z[j]);
            for (size_t j = 0; j < count; j++) low = std::min(low, d[j]);
            if (low < least) {
                least = low;
                best = surface[i + size_t(std::find(d, d + count, low) - d)];
            }
        }
        return best;
    }

    const char *answer(const Box &box, std::vector<uint32_t> &found, Marks &marks) const override {
        found.clear();
        at.each(box, [&](size_t i) { found.push_back(surface[i]); });
        const char *route = "probe";
        if (found.empty()) {
            uint64_t least = 0;
            uint32_t v = surface.empty() ? GONE : nearest(box, least);
            while (v != GONE && least > 0) {
                std::pair<uint64_t, uint32_t> next{UINT64_MAX, GONE};
                for (const uint32_t *w = tables.near.begin(v); w != tables.near.end(v); w++)
                    next = std::min(next, {box.dist2(points[*w]), *w});
                v = next.first < least ? next.second : GONE;
                least = next.first;
            }
            if (v == GONE) {
                scan(box, found);
                return "scan";
            }
            found.push_back(v);
            route = "walk";
        }
        crawl(box, found, marks);
        return route;
    }

    // From the found vertices on, from neighbour to neighbour inside the box; then ascending.
    void crawl(const Box &box, std::vector<uint32_t> &found, Marks &marks) const {
        marks.seen.resize(points.size() / 64 + 1);
        marks.in.resize(points.size() / 64 + 1);
        uint64_t *seen = marks.seen.data(), *in = marks.in.data();
        size_t low = SIZE_MAX, high = 0;
        auto see = [&](uint32_t v) {
            seen[v / 64] |= uint64_t(1) << v % 64;
            low = std::min<size_t>(low, v / 64);
            high = std::max<size_t>(high, v / 64);
        };
        for (uint32_t v : found) {
            see(v);
            in[v / 64] |= uint64_t(1) << v % 64;
        }
        for (size_t i = 0; i < found.size(); i++) {
            if (i + 8 < found.size()) __builtin_prefetch(&tables.near.rows[found[i + 8]]);
            if (i + 4 < found.size()) __builtin_prefetch(tables.near.begin(found[i + 4]));
            for (const uint32_t *w = tables.near.begin(found[i]), *end = tables.near.end(found[i]); w != end; w++) {
                if (seen[*w / 64] >> *w % 64 & 1) continue;
                see(*w);
                if (box.has(points[*w])) {
                    in[*w / 64] |= uint64_t(1) << *w % 64;
                    found.push_back(*w);
                }
            }
        }
        if (found.size() * 16 > high - low) {
            size_t k = 0;
            for (size_t word = low; word <= high; word++)
                for (uint64_t bits = in[word]; bits; bits &= bits - 1)
                    found[k++] = uint32_t(64 * word) + uint32_t(__builtin_ctzll(bits));
        } else {
            std::sort(found.begin(), found.end());
        }
        std::fill(seen + low, seen + high + 1, 0);
        std::fill(in + low, in + high + 1, 0);
    }
};
