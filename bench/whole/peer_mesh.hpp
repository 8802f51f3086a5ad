// Meshes, scripts and the tables of a mesh in C++: cells of a point, neighbours, and how many faces of the surface a
// point is on.
#pragma once
#include "peer_text.hpp"
#include <algorithm>
#include <array>
#include <omp.h>
#include <cstdio>
#include <utility>

using Cell = std::array<uint32_t, 4>;
static constexpr uint32_t GONE = UINT32_MAX;
static constexpr int32_t FAR = 1 << 30;

struct alignas(16) Place {
    int32_t c[4]; // the fourth is 0
};

struct Box {
    int32_t lo[3], hi[3];
    uint32_t step, session, index;

    bool has(const Place &p) const {
        return lo[0] <= p.c[0] && p.c[0] <= hi[0] && lo[1] <= p.c[1] && p.c[1] <= hi[1] && lo[2] <= p.c[2] &&
               p.c[2] <= hi[2];
    }
    static int64_t gap(int32_t c, int32_t lo, int32_t hi) {
        return c < lo ? int64_t(lo) - c : c > hi ? int64_t(c) - hi : 0;
    }
    uint64_t dist2(int32_t x, int32_t y, int32_t z) const {
        const int64_t a = gap(x, lo[0], hi[0]), b = gap(y, lo[1], hi[1]), c = gap(z, lo[2], hi[2]);
        return uint64_t(a * a) + uint64_t(b * b) + uint64_t(c * c);
    }
    uint64_t dist2(const Place &p) const { return dist2(p.c[0], p.c[1], p.c[2]); }
};

struct Mesh {
    List<Place> points;
    List<Cell> cells;

    explicit Mesh(const char *name) {
        const File file(name);
        Words words{file.text};
        words.to("\nPOINTS ");
        const size_t count = words.count();
        words.word();
        points.reserve(count + count / 8 + 1024);
        points.resize(count);
        for (Place &p : points) {
            for (size_t a = 0; a < 3; a++) p.c[a] = words.whole();
            p.c[3] = 0;
        }
        words.to("\nCELLS ");
        const size_t live = words.count();
        words.count();
        cells.reserve(live + live / 8 + 1024);
        cells.resize(live);
        for (Cell &cell : cells) {
            words.count();
            for (uint32_t &v : cell) v = words.count();
        }
    }
};

enum class Motion { Stay, Shift, Pull, Shake, Relax, Turn };
struct Edit {
    char kind; // the first letter of its word
    Cell cell; // the corners, or the number of a cell in the first
    Place place;
};
struct Plan {
    size_t from, to; // its edits
    Motion motion;
    int32_t value[5];
};

struct Script {
    std::vector<Edit> edits;
    std::vector<Plan> plans;
    std::vector<std::vector<Box>> sessions;

    explicit Script(const char *name) {
        const File file(name);
        Words words{file.text};
        words.line();
        size_t from = 0;
        uint32_t step = 0;
        for (;;) {
            const std::string_view word = words.word();
            if (word.empty() || word == "end") break;
            if (word[0] == '#') words.line();
            else if (word == "session") sessions.emplace_back(), step = 0;
            else if (word == "wait") step = std::max(step, words.count());
            else if (word == "box") {
                Box box;
                for (int32_t &c : box.lo) c = words.whole();
                for (int32_t &c : box.hi) c = words.whole();
                box.step = step, box.session = uint32_t(sessions.size() - 1),
                box.index = uint32_t(sessions.back().size());
                sessions.back().push_back(box);
            } else if (word == "hold" || word == "free")
                continue; // boxes of a hold wait for one step, and are asked of it
            else if (word == "point" || word == "add" || word == "remove" || word == "split") {
                Edit edit{word[0], {}, {}};
                if (word != "point")
                    for (size_t k = 0; k < (word == "add" ? 4 : 1); k++) edit.cell[k] = words.count();
                if (word == "point" || word == "split")
                    for (size_t a = 0; a < 3; a++) edit.place.c[a] = words.whole();
                edits.push_back(edit);
            } else {
                plans.push_back(plan(word, words, from, edits.size()));
                from = edits.size();
            }
        }
    }

    static Plan plan(std::string_view word, Words &words, size_t from, size_t to) {
        static constexpr std::pair<std::string_view, int> MOTIONS[] = {{"stay", 0},  {"shift", 3}, {"pull", 5},
                                                                       {"shake", 2}, {"relax", 0}, {"turn", 0}};
        for (size_t m = 0; m < 6; m++)
            if (word == MOTIONS[m].first) {
                Plan plan{from, to, Motion(m), {}};
                for (int k = 0; k < MOTIONS[m].second; k++) plan.value[k] = words.whole();
                if (Motion(m) == Motion::Turn) plan.value[0] = words.word()[0] - 'x';
                return plan;
            }
        std::exit(8);
    }
};

// Lists in one pool, each with room to grow.
struct Rows {
    struct Row {
        uint32_t at, size, room;
    };
    List<Row> rows;
    List<uint32_t> pool;

    const uint32_t *begin(uint32_t v) const { return pool.data() + rows[v].at; }
    const uint32_t *end(uint32_t v) const { return begin(v) + rows[v].size; }
    uint32_t *find(uint32_t v, uint32_t w) {
        uint32_t *from = pool.data() + rows[v].at;
        return std::find(from, from + rows[v].size, w);
    }
    bool has(uint32_t v, uint32_t w) { return find(v, w) != end(v); }
    void push(uint32_t v, uint32_t w) {
        Row &row = rows[v];
        if (row.size == row.room) {
            const uint32_t room = row.room + row.room / 2 + 4, at = uint32_t(pool.size());
            pool.resize(pool.size() + room);
            std::copy_n(pool.data() + row.at, row.size, pool.data() + at);
            row.at = at, row.room = room;
        }
        pool[row.at + row.size++] = w;
    }
    void drop(uint32_t v, uint32_t w) {
        *find(v, w) = *(end(v) - 1);
        rows[v].size--;
    }
};

// The tables, over cells that are edited in place.
struct Tables {
    List<Cell> &cells;
    Rows cells_at, near;
    List<uint32_t> singles; // on how many faces of one cell a point is
    bool changed = true;

    explicit Tables(List<Cell> &cells) : cells(cells) {}

    void list_cells(size_t points) {
        List<uint32_t> at(points);
        std::fill(at.begin(), at.end(), 0);
        for (const Cell &cell : cells)
            for (uint32_t v : cell) at[v]++;
        cells_at.rows.reserve(points + points / 8 + 1024);
        cells_at.rows.resize(points);
        uint32_t sum = 0;
        for (size_t v = 0; v < points; v++) {
            cells_at.rows[v] = {sum, at[v], at[v]};
            sum += std::exchange(at[v], sum);
        }
        cells_at.pool.reserve(sum + sum / 16 + 1024);
        cells_at.pool.resize(sum);
        for (uint32_t i = 0; i < cells.size(); i++)
            for (uint32_t v : cells[i]) cells_at.pool[at[v]++] = i;
    }

    // Neighbours of v behind `list`, which are unmarked before, and the other corners of its faces of which it is the
    // least.
    void look(uint32_t v, List<uint32_t> &marks, List<uint32_t> &list, std::vector<uint64_t> &faces) const {
        faces.clear();
        marks[v] = v;
        for (const uint32_t *i = cells_at.begin(v), *end = cells_at.end(v); i != end; i++) {
            if (end - i > 8) __builtin_prefetch(&cells[i[8]]);
            uint32_t above[4];
            size_t n = 0;
            for (uint32_t w : cells[*i]) {
                if (marks[w] != v) {
                    marks[w] = v;
                    list.push_back(w);
                }
                above[n] = w;
                n += w > v;
            }
            for (size_t a = 0; a < n; a++)
                for (size_t b = a + 1; b < n; b++)
                    faces.push_back(uint64_t(std::min(above[a], above[b])) << 32 | std::max(above[a], above[b]));
        }
    }

    void count_singles(uint32_t v, std::vector<uint64_t> &faces) {
        std::sort(faces.begin(), faces.end());
        for (size_t i = 0, j; i < faces.size(); i = j) {
            for (j = i + 1; j < faces.size() && faces[j] == faces[i];) j++;
            if (j - i == 1)
                for (uint32_t w : {v, uint32_t(faces[i] >> 32), uint32_t(faces[i])})
                    __atomic_fetch_add(&singles[w], 1, __ATOMIC_RELAXED);
        }
    }

    void build(size_t points, int threads) {
        list_cells(points);
        singles.reserve(points + points / 8 + 1024);
        singles.resize(points);
        std::fill(singles.begin(), singles.end(), 0);
        near.rows.reserve(points + points / 8 + 1024);
        near.rows.resize(points);
        std::vector<List<uint32_t>> lists(static_cast<size_t>(threads));
        std::vector<size_t> bases(static_cast<size_t>(threads) + 1);
#pragma omp parallel num_threads(threads)
        {
            const size_t t = size_t(omp_get_thread_num()), all = size_t(threads);
            const uint32_t from = uint32_t(points * t / all), to = uint32_t(points * (t + 1) / all);
            List<uint32_t> marks(points), &list = lists[t];
            std::fill(marks.begin(), marks.end(), GONE);
            std::vector<uint64_t> faces;
            list.reserve(size_t(to - from) * 15 + 1024);
            for (uint32_t v = from; v < to; v++) {
                const size_t at = list.size();
                look(v, marks, list, faces);
                const uint32_t size = uint32_t(list.size() - at);
                near.rows[v] = {uint32_t(at), size, size};
                count_singles(v, faces);
            }
#pragma omp barrier
#pragma omp single
            {
                for (size_t k = 0; k < all; k++) bases[k + 1] = bases[k] + lists[k].size();
                if (all > 1) {
                    near.pool.reserve(bases[all] + bases[all] / 16 + 1024);
                    near.pool.resize(bases[all]);
                } else {
                    near.pool.swap(lists[0]);
                }
            }
            if (all > 1) {
                std::copy(list.begin(), list.end(), near.pool.begin() + long(bases[t]));
                for (uint32_t v = from; v < to; v++) near.rows[v].at += uint32_t(bases[t]);
            }
        }
    }

    void point() {
        cells_at.rows.push_back({0, 0, 0});
        near.rows.push_back({0, 0, 0});
        singles.push_back(0);
    }

    static bool is_of(const Cell &cell, uint32_t v) {
        return cell[0] == v || cell[1] == v || cell[2] == v || cell[3] == v;
    }

    // Counts the four faces of a cell that came or went: a face with one cell is of the surface.
    void count_faces(const Cell &cell, uint32_t more, uint32_t less) {
        for (size_t out = 0; out < 4; out++) {
            uint32_t a = cell[(out + 1) % 4], b = cell[(out + 2) % 4], c = cell[(out + 3) % 4];
            if (cells_at.rows[b].size < cells_at.rows[a].size) std::swap(a, b);
            if (cells_at.rows[c].size < cells_at.rows[a].size) std::swap(a, c);
            uint32_t count = 0;
            for (const uint32_t *i = cells_at.begin(a); i != cells_at.end(a); i++)
                count += is_of(cells[*i], b) && is_of(cells[*i], c);
            const uint32_t by = count == more ? 1 : count == less ? UINT32_MAX : 0;
            if (by != 0)
                for (uint32_t v : {a, b, c}) {
                    changed |= (singles[v] == 0) != (singles[v] + by == 0);
                    singles[v] += by;
                }
        }
    }

    void add(const Cell &cell) {
        const uint32_t i = uint32_t(cells.size());
        cells.push_back(cell);
        for (uint32_t v : cell) cells_at.push(v, i);
        for (uint32_t v : cell)
            for (uint32_t w : cell)
                if (v != w && !near.has(v, w)) near.push(v, w);
        count_faces(cell, 1, 2);
    }

    void remove(uint32_t i) {
        const Cell cell = std::exchange(cells[i], {GONE, GONE, GONE, GONE});
        for (uint32_t v : cell) cells_at.drop(v, i);
        for (uint32_t v : cell)
            for (uint32_t w : cell)
                if (v != w &&
                    std::none_of(cells_at.begin(v), cells_at.end(v), [&](uint32_t k) { return is_of(cells[k], w); }))
                    near.drop(v, w);
        count_faces(cell, 1, 0);
    }

    // Each face of the cell goes to one of the four new ones, so the surface stays.
    void split(uint32_t i, uint32_t n) {
        point();
        const Cell cell = std::exchange(cells[i], {GONE, GONE, GONE, GONE});
        const uint32_t first = uint32_t(cells.size());
        for (uint32_t k = 0; k < 4; k++) {
            Cell part = cell;
            part[k] = n;
            cells.push_back(part);
            cells_at.push(n, first + k);
            near.push(n, cell[k]);
        }
        for (uint32_t k = 0; k < 4; k++) {
            const uint32_t v = cell[k];
            *cells_at.find(v, i) = first + (k + 1) % 4;
            cells_at.push(v, first + (k + 2) % 4);
            cells_at.push(v, first + (k + 3) % 4);
            near.push(v, n);
        }
    }
};
