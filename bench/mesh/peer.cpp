// Reads the points and the tetrahedra of a mesh text, held whole, with from_chars. It checks what a careful reader would:
// words, counts, numbers in range, the size, types and equal corners.
#include <charconv>
#include <chrono>
#include <cstdint>
#include <cstdio>
#include <cstdlib>
#include <cstring>
#include <string_view>
#include <vector>

static const char *at, *end;

static bool blank(char c) { return c == ' ' || (c >= '\t' && c <= '\r'); }

static std::string_view token() {
    while (at < end && blank(*at)) ++at;
    const char *first = at;
    while (at < end && !blank(*at)) ++at;
    if (first == at) exit(3);
    return {first, size_t(at - first)};
}

static void expect(const char *word) {
    if (token() != word) exit(4);
}

template <class T> static T number() {
    auto text = token();
    T value;
    auto [rest, fault] = std::from_chars(text.data(), text.data() + text.size(), value);
    if (fault != std::errc() || rest != text.data() + text.size()) exit(5);
    return value;
}

int main(int count, char **words) {
    if (count < 2) return 2;
    auto start = std::chrono::steady_clock::now();
    FILE *file = fopen(words[1], "rb");
    if (!file) return 2;
    fseek(file, 0, SEEK_END);
    size_t size = ftell(file);
    rewind(file);
    std::vector<char> text(size);
    if (fread(text.data(), 1, size, file) != size) return 2;
    fclose(file);
    at = text.data();
    end = at + size;
    for (int line = 0; line < 2; ++line) at = (const char *)memchr(at, '\n', end - at) + 1;
    expect("ASCII");
    expect("DATASET");
    expect("UNSTRUCTURED_GRID");
    expect("POINTS");
    struct Point { int32_t x, y, z; };
    struct Cell { uint32_t corners[4]; };
    std::vector<Point> points(number<uint32_t>());
    token();
    for (auto &p : points) {
        p = {number<int32_t>(), number<int32_t>(), number<int32_t>()};
        for (int32_t c : {p.x, p.y, p.z})
            if (c < -(1 << 30) || c > (1 << 30)) exit(6);
    }
    expect("CELLS");
    std::vector<Cell> cells(number<uint32_t>());
    uint64_t room = number<uint64_t>();
    for (auto &c : cells) {
        if (number<uint32_t>() != 4 || room < 5) exit(7);
        room -= 5;
        for (auto &v : c.corners)
            if ((v = number<uint32_t>()) >= points.size()) exit(8);
    }
    if (room) exit(7);
    expect("CELL_TYPES");
    if (number<uint32_t>() != cells.size()) exit(7);
    for (auto &c : cells) {
        if (number<uint32_t>() != 10) exit(9);
        for (int i = 0; i < 4; ++i)
            for (int j = 0; j < i; ++j)
                if (c.corners[i] == c.corners[j]) exit(10);
    }
    std::chrono::duration<double> time = std::chrono::steady_clock::now() - start;
    printf("%f %zu %zu\n", time.count(), points.size(), cells.size());
}
