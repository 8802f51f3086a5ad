// Meshes that are made to be slow.
//   made mixed MESH              writes the same mesh with its points and its cells numbered at random
//   made sums|fold CELLS FOLDER  writes KIND.vtk, KIND-splits.txt and KIND-changes.txt into the folder: a mesh whose
//                                faces fall into few places of a map by their hash, and scripts of edits of such faces
//
// The map finds a face of the points a < b < c by 32 bits: the low ones say in which group of twelve places the search
// begins, the top eight are compared before the face itself, and a full group sends the search on to the next one.
//
// sums: against the hash that face_table had up to version 0.3.0, which followed from 3a + 2b + c and a + b + c alone. The faces
// (t, B - 2t, C + t) for all t have one hash in all 32 bits, so each is compared with all of them that came before. Two
// faces of a cell can be in such classes: (a, b, c) and (a, b, d). All cells of a layer share the first, and all five
// layers the second: six classes of 200,000 faces in a mesh of 1,000,000 cells.
//
// fold: against the hash of indexmap where none is named, which multiplies to 128 bits and joins the halves, with a
// fixed seed. Faces with one hash in all 32 bits can't be worked out there, only tried: 200,000 of them would take some
// 10^15 tries. So it takes faces with one top byte that begin their search in one sixteenth of the groups, as one of
// 4,096 does. They fill a sixth of the map without a gap, and the search for one is compared with those before it on
// the way. One kind of face of each cell can be chosen so, 1,000,000 in all.
#include "peer_mesh.hpp"
#include <random>

struct Made {
    uint32_t points = 0;
    List<Cell> cells;
    std::vector<uint32_t> splits; // the cells to split, in this order
};
static constexpr uint32_t SPLITS = 1000, STEPS = 10, CHANGES = 50, NONE = UINT32_MAX;

static Made sums(uint32_t cells) {
    const uint32_t layers = 5, rest = std::min(SPLITS, cells / 10), each = (cells - rest) / layers;
    const uint32_t b = 3 * (each + rest) + 1, c = b + 1, d = c + layers;
    Made made;
    made.points = d + each;
    for (uint32_t s = 0; s < layers; s++)
        for (uint32_t t = 0; t < each; t++) made.cells.push_back({t, b - 2 * t, c + s + t, d + t});
    // The split of one of these brings the face (t, B - 2t, points + k) of the class that all layers share, since
    // points - each = d.
    for (uint32_t k = 0; k < rest; k++) {
        const uint32_t t = each + k;
        made.splits.push_back(uint32_t(made.cells.size()));
        made.cells.push_back({t, b - 2 * t, b - 2 * t + 1, c + k});
    }
    return made;
}

static uint64_t folded(uint64_t state, uint32_t number) {
    const unsigned __int128 product =
        static_cast<unsigned __int128>(state ^ (number | uint64_t(number) << 32)) * (0x9e3779b97f4a7c15 ^ 8);
    return uint64_t(product) ^ uint64_t(product >> 64);
}
static uint64_t folded_pair(uint32_t a, uint32_t b) { return folded(folded(uint64_t(0x243f6a8885a308d3), a), b); }
static bool is_near(uint64_t pair, uint32_t c) {
    const uint64_t hash = folded(pair, c);
    return ((hash ^ hash >> 32) & 0xff078000) == 0x5a000000;
}

static Made fold(uint32_t cells) {
    Made made;
    made.points = 1000000 - SPLITS;
    const uint32_t pairs = cells / 220 + 1;
    std::vector<std::vector<uint32_t>> thirds(pairs); // the third points of the faces of each pair
#pragma omp parallel for schedule(dynamic)
    for (uint32_t i = 0; i < pairs; i++) {
        const uint64_t pair = folded_pair(i, pairs + i);
        for (uint32_t c = 2 * pairs; c < made.points; c++)
            if (is_near(pair, c)) thirds[i].push_back(c);
    }
    std::vector<uint32_t> next(1, 0); // where the cells of each pair begin
    for (uint32_t i = 0; i < pairs; i++) {
        for (size_t k = 1; k < thirds[i].size() && made.cells.size() < cells; k++)
            made.cells.push_back({i, pairs + i, thirds[i][k - 1], thirds[i][k]});
        next.push_back(uint32_t(made.cells.size()));
    }
    const std::vector<uint32_t> begin = next;
    for (uint32_t k = 0; k < SPLITS;
         k++) { // a pair whose face with the new point is near, or any pair that has cells left
        uint32_t found = NONE;
        bool near = false;
        for (uint32_t i = 0; i < pairs && !near; i++) {
            if (next[i] == begin[i + 1]) continue;
            near = is_near(folded_pair(i, pairs + i), made.points + k);
            if (near || found == NONE) found = i;
        }
        if (found == NONE) break;
        made.splits.push_back(next[found]++);
    }
    return made;
}

static std::FILE *file(const std::string &folder, const std::string &name) {
    std::FILE *file = std::fopen((folder + "/" + name).c_str(), "w");
    if (!file) std::exit(4);
    return file;
}

static void put_mesh(std::FILE *file, const List<Place> &points, const List<Cell> &cells) {
    std::setvbuf(file, nullptr, _IOFBF, 1 << 20);
    std::fprintf(file, "# vtk DataFile Version 3.0\nmade mesh\nASCII\nDATASET UNSTRUCTURED_GRID\nPOINTS %zu int\n",
                 points.size());
    for (const Place &p : points) std::fprintf(file, "%d %d %d\n", p.c[0], p.c[1], p.c[2]);
    std::fprintf(file, "CELLS %zu %zu\n", cells.size(), 5 * cells.size());
    for (const Cell &cell : cells) std::fprintf(file, "4 %u %u %u %u\n", cell[0], cell[1], cell[2], cell[3]);
    std::fprintf(file, "CELL_TYPES %zu\n", cells.size());
    for (size_t i = 0; i < cells.size(); i++) std::fputs("10\n", file);
    std::fclose(file);
}

static void mixed(const char *name) {
    Mesh mesh(name);
    std::mt19937_64 chance(1);
    auto shuffle = [&](auto &list) {
        for (size_t i = list.size(); i > 1; i--) std::swap(list[i - 1], list[chance() % i]);
    };
    List<uint32_t> number(mesh.points.size());
    for (uint32_t v = 0; v < number.size(); v++) number[v] = v;
    shuffle(number);
    List<Place> points(number.size());
    for (uint32_t v = 0; v < number.size(); v++) points[number[v]] = mesh.points[v];
    for (Cell &cell : mesh.cells)
        for (uint32_t &v : cell) v = number[v];
    shuffle(mesh.cells);
    put_mesh(stdout, points, mesh.cells);
}

static void put_splits(std::FILE *out, const Made &made) {
    std::fputs("octopus script 1\n", out);
    for (uint32_t k = 0; k < made.splits.size(); k++) {
        std::fprintf(out, "split %u 7 5 3\n", made.splits[k]);
        if ((k + 1) % (SPLITS / STEPS) == 0) std::fputs("stay\n", out);
    }
    for (uint32_t k = uint32_t(made.splits.size()) / (SPLITS / STEPS); k < STEPS; k++) std::fputs("stay\n", out);
    std::fputs("end\n", out);
    std::fclose(out);
}

// Removes cells and adds them again.
static void put_changes(std::FILE *out, const Made &made) {
    std::fputs("octopus script 1\n", out);
    const size_t apart = made.cells.size() / (STEPS * CHANGES) + 1;
    for (size_t step = 0; step < STEPS; step++) {
        for (size_t i = step * CHANGES * apart; i < std::min((step + 1) * CHANGES * apart, made.cells.size());
             i += apart)
            std::fprintf(out, "remove %zu\n", i);
        for (size_t i = step * CHANGES * apart; i < std::min((step + 1) * CHANGES * apart, made.cells.size());
             i += apart) {
            const Cell &cell = made.cells[i];
            std::fprintf(out, "add %u %u %u %u\n", cell[0], cell[1], cell[2], cell[3]);
        }
        std::fputs("stay\n", out);
    }
    std::fputs("end\n", out);
    std::fclose(out);
}

int main(int count, char **args) {
    const std::string kind = count > 1 ? args[1] : "";
    if (kind == "mixed" && count == 3) return mixed(args[2]), 0;
    if ((kind != "sums" && kind != "fold") || count != 4) return 2;
    const std::string folder = args[3];
    const Made made = kind == "sums" ? sums(uint32_t(std::atol(args[2]))) : fold(uint32_t(std::atol(args[2])));
    List<Place> points(made.points);
    for (int32_t v = 0; v < int32_t(made.points); v++)
        points[size_t(v)] = {{16 * (v % 100), 16 * (v / 100 % 100), 16 * (v / 10000), 0}};
    put_mesh(file(folder, kind + ".vtk"), points, made.cells);
    put_splits(file(folder, kind + "-splits.txt"), made);
    put_changes(file(folder, kind + "-changes.txt"), made);
}
