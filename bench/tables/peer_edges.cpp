// Neighbours with counts in C++: sorted vectors, and an unordered_map for each point.
#include "block.hpp"
#include <algorithm>
#include <array>
#include <chrono>
#include <cstdint>
#include <cstdio>
#include <cstdlib>
#include <cstring>
#include <unordered_map>
#include <vector>

struct Sorted {
    struct Row {
        std::vector<uint32_t> near, counts;
    };
    std::vector<Row> rows;

    explicit Sorted(size_t points) : rows(points) {}

    void put(uint32_t v, uint32_t w) {
        Row &row = rows[v];
        auto place = std::lower_bound(row.near.begin(), row.near.end(), w);
        auto i = place - row.near.begin();
        if (place != row.near.end() && *place == w) {
            row.counts[i]++;
        } else {
            row.near.insert(place, w);
            row.counts.insert(row.counts.begin() + i, 1);
        }
    }

    void take(uint32_t v, uint32_t w) {
        Row &row = rows[v];
        auto place = std::lower_bound(row.near.begin(), row.near.end(), w);
        auto i = place - row.near.begin();
        if (--row.counts[i] == 0) {
            row.near.erase(place);
            row.counts.erase(row.counts.begin() + i);
        }
    }

    size_t degree(uint32_t v) const { return rows[v].near.size(); }
};

struct Hashed {
    std::vector<std::unordered_map<uint32_t, uint32_t>> rows;

    explicit Hashed(size_t points) : rows(points) {}

    void put(uint32_t v, uint32_t w) { rows[v][w]++; }

    void take(uint32_t v, uint32_t w) {
        auto place = rows[v].find(w);
        if (--place->second == 0) rows[v].erase(place);
    }

    size_t degree(uint32_t v) const { return rows[v].size(); }
};

template <class Table> void put_cell(Table &table, const Cell &cell) {
    for (uint32_t v : cell)
        for (uint32_t w : cell)
            if (v != w) table.put(v, w);
}

template <class Table> void take_cell(Table &table, const Cell &cell) {
    for (uint32_t v : cell)
        for (uint32_t w : cell)
            if (v != w) table.take(v, w);
}

size_t resident() {
    long pages = 0;
    if (FILE *file = std::fopen("/proc/self/statm", "r")) {
        if (std::fscanf(file, "%*ld %ld", &pages) != 1) pages = 0;
        std::fclose(file);
    }
    return size_t(pages) * 4096;
}

template <class Table> void run(const char *name, uint32_t n) {
    using Clock = std::chrono::steady_clock;
    auto since = [](Clock::time_point start) {
        return std::chrono::duration_cast<std::chrono::nanoseconds>(Clock::now() - start).count();
    };
    std::vector<Cell> cells = block_cells(n);
    size_t points = size_t(n + 1) * (n + 1) * (n + 1), count = cells.size() / 6;
    size_t before = resident();
    auto start = Clock::now();
    Table table(points);
    for (const Cell &cell : cells) put_cell(table, cell);
    long long build = since(start) / 1000;
    size_t bytes = (resident() - before) / cells.size();
    start = Clock::now();
    for (size_t i = 0; i < count; i++) put_cell(table, cells[6 * i]);
    long long put = since(start) / (long long)count;
    start = Clock::now();
    for (size_t i = 0; i < count; i++) take_cell(table, cells[6 * i]);
    long long take = since(start) / (long long)count;
    size_t sum = 0;
    for (uint32_t v = 0; v < points; v++) sum += table.degree(v);
    std::printf("%-14s n %u cells %zu build %lld us, put %lld ns, take %lld ns, %zu bytes a cell, degrees %zu\n", name, n,
                cells.size(), build, put, take, bytes, sum);
}

int main(int argc, char **argv) {
    if (argc != 3) return 2;
    uint32_t n = uint32_t(std::strtoul(argv[2], nullptr, 10));
    if (std::strcmp(argv[1], "sorted") == 0) run<Sorted>("sorted vectors", n);
    else run<Hashed>("unordered_map", n);
}
