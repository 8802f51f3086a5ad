// Faces with counts in C++: a sorted array, and an unordered_map.
#include "block.hpp"
#include <algorithm>
#include <array>
#include <chrono>
#include <cstdint>
#include <cstdio>
#include <cstdlib>
#include <cstring>
#include <unordered_map>
#include <vector>

using Face = std::array<uint32_t, 3>;

std::array<Face, 4> faces(const Cell &c) {
    std::array<Face, 4> all = {{{c[1], c[2], c[3]}, {c[0], c[2], c[3]}, {c[0], c[1], c[3]}, {c[0], c[1], c[2]}}};
    for (Face &face : all) std::sort(face.begin(), face.end());
    return all;
}

// For each point, on how many faces with a count of one it is.
struct Singles {
    std::vector<uint32_t> rows;

    explicit Singles(size_t points) : rows(points) {}

    void change(const Face &face, uint32_t before, uint32_t after) {
        for (uint32_t v : face) rows[v] += (after == 1) - (before == 1);
    }

    size_t surface() const { return rows.size() - std::count(rows.begin(), rows.end(), 0u); }
};

// All faces sorted, each once, with their counts beside them.
struct Sorted {
    std::vector<Face> keys;
    std::vector<uint32_t> counts;
    Singles singles;

    Sorted(size_t points, const std::vector<Cell> &cells) : singles(points) {
        for (const Cell &cell : cells)
            for (const Face &face : faces(cell)) keys.push_back(face);
        std::sort(keys.begin(), keys.end());
        size_t kept = 0;
        for (size_t i = 0; i < keys.size(); kept++) {
            size_t j = i;
            while (j < keys.size() && keys[j] == keys[i]) j++;
            keys[kept] = keys[i];
            counts.push_back(uint32_t(j - i));
            singles.change(keys[kept], 0, uint32_t(j - i));
            i = j;
        }
        keys.resize(kept);
    }

    void put(const Face &face) {
        auto place = std::lower_bound(keys.begin(), keys.end(), face);
        auto i = place - keys.begin();
        if (place == keys.end() || *place != face) {
            keys.insert(place, face);
            counts.insert(counts.begin() + i, 0);
        }
        singles.change(face, counts[i], counts[i] + 1);
        counts[i]++;
    }

    void take(const Face &face) {
        auto place = std::lower_bound(keys.begin(), keys.end(), face);
        auto i = place - keys.begin();
        singles.change(face, counts[i], counts[i] - 1);
        if (--counts[i] == 0) {
            keys.erase(place);
            counts.erase(counts.begin() + i);
        }
    }
};

struct Hashed {
    struct Hash {
        size_t operator()(const Face &face) const {
            uint64_t mixed = 0;
            for (uint32_t v : face) {
                mixed = (mixed ^ v) * 0x9e3779b97f4a7c15u;
                mixed ^= mixed >> 32;
            }
            return mixed;
        }
    };
    std::unordered_map<Face, uint32_t, Hash> counts;
    Singles singles;

    Hashed(size_t points, const std::vector<Cell> &cells) : singles(points) {
        counts.reserve(2 * cells.size());
        for (const Cell &cell : cells)
            for (const Face &face : faces(cell)) put(face);
    }

    void put(const Face &face) {
        uint32_t &count = counts[face];
        singles.change(face, count, count + 1);
        count++;
    }

    void take(const Face &face) {
        auto place = counts.find(face);
        singles.change(face, place->second, place->second - 1);
        if (--place->second == 0) counts.erase(place);
    }
};

template <class Table> void put_cell(Table &table, const Cell &cell) {
    for (const Face &face : faces(cell)) table.put(face);
}

template <class Table> void take_cell(Table &table, const Cell &cell) {
    for (const Face &face : faces(cell)) table.take(face);
}

size_t resident() {
    long pages = 0;
    if (FILE *file = std::fopen("/proc/self/statm", "r")) {
        if (std::fscanf(file, "%*s %ld", &pages) != 1) pages = 0;
        std::fclose(file);
    }
    return size_t(pages) * 4096;
}

template <class Table> void run(const char *name, uint32_t n) {
    using Clock = std::chrono::steady_clock;
    auto since = [](Clock::time_point start) {
        return std::chrono::duration_cast<std::chrono::nanoseconds>(Clock::now() - start).count();
    };
    std::vector<Cell> cells = block_cells(n);
    size_t points = size_t(n + 1) * (n + 1) * (n + 1), count = cells.size() / 6;
    size_t before = resident();
    auto start = Clock::now();
    Table table(points, cells);
    long long build = since(start) / 1000;
    size_t bytes = (resident() - before) / cells.size();
    start = Clock::now();
    for (size_t i = 0; i < count; i++) put_cell(table, cells[6 * i]);
    long long put = since(start) / (long long)count;
    start = Clock::now();
    for (size_t i = 0; i < count; i++) take_cell(table, cells[6 * i]);
    long long take = since(start) / (long long)count;
    std::printf("%-14s n %u cells %zu build %lld us, put %lld ns, take %lld ns, %zu bytes a cell, surface %zu\n", name, n,
                cells.size(), build, put, take, bytes, table.singles.surface());
}

int main(int argc, char **argv) {
    if (argc != 3) return 2;
    uint32_t n = uint32_t(std::strtoul(argv[2], nullptr, 10));
    if (std::strcmp(argv[1], "sorted") == 0) run<Sorted>("sorted array", n);
    else run<Hashed>("unordered_map", n);
}
