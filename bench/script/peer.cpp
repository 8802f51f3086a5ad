// The same reading as run.sh's program, by the C++ library: the same table of lines, order, limits, ranges and lists.
#include <charconv>
#include <chrono>
#include <cstdint>
#include <cstdio>
#include <fstream>
#include <iterator>
#include <string>
#include <string_view>
#include <vector>

struct Edit {
    uint32_t line;
    uint8_t kind;
    uint32_t values[4];
    int32_t at[3];
};
struct Plan {
    std::vector<Edit> edits;
    uint8_t kernel;
    int32_t values[5];
};
struct Item {
    uint8_t kind;
    uint32_t line, step;
    int32_t area[6];
};
struct Script {
    std::vector<Plan> plans;
    std::vector<std::vector<Item>> sessions;
};

struct Line {
    const char *at, *end;
    bool word(std::string_view &out) {
        while (at != end && (*at == ' ' || *at == '\t')) ++at;
        const char *begin = at;
        while (at != end && *at != ' ' && *at != '\t') ++at;
        out = std::string_view(begin, at - begin);
        return at != begin;
    }
    template <class T> bool number(T &out, int64_t least, int64_t most) {
        std::string_view w;
        if (!word(w)) return false;
        const char *from = w.data();
        if (*from == '+') ++from;
        int64_t value;
        auto [stop, error] = std::from_chars(from, w.data() + w.size(), value);
        if (error != std::errc() || stop != w.data() + w.size() || value < least || value > most) return false;
        out = static_cast<T>(value);
        return true;
    }
    bool place(int32_t *out) {
        for (int i = 0; i < 3; ++i)
            if (!number(out[i], -(1 << 30), 1 << 30)) return false;
        return true;
    }
    bool ends() {
        std::string_view w;
        return !word(w);
    }
};

constexpr int64_t TOP = 4294967295;

static bool read_edit(Line &line, std::string_view word, Edit &e) {
    if (word == "point") return e.kind = 0, line.place(e.at);
    if (word == "add") {
        e.kind = 1;
        for (auto &v : e.values)
            if (!line.number(v, 0, TOP)) return false;
        return true;
    }
    if (word == "remove") return e.kind = 2, line.number(e.values[0], 0, TOP);
    return e.kind = 3, line.number(e.values[0], 0, TOP) && line.place(e.at);
}

static bool read_move(Line &line, std::string_view word, Plan &plan) {
    if (word == "stay" || word == "relax") return true;
    if (word == "shift") return line.place(plan.values);
    if (word == "pull")
        return line.place(plan.values) && line.number(plan.values[3], -1024, 1024) && line.number(plan.values[4], 1, 1024);
    if (word == "shake") return line.number(plan.values[0], 0, 65535) && line.number(plan.values[1], 0, 1000);
    std::string_view axis;
    return line.word(axis) && (axis == "x" || axis == "y" || axis == "z");
}

static bool read(std::string_view text, Script &script) {
    std::vector<Edit> waiting;
    size_t edits = 0, boxes = 0;
    uint32_t number = 0;
    bool ended = false;
    for (size_t at = 0; at < text.size();) {
        size_t end = text.find('\n', at);
        if (end == std::string_view::npos) end = text.size();
        size_t stop = end > at && text[end - 1] == '\r' ? end - 1 : end;
        Line line{text.data() + at, text.data() + stop};
        at = end + 1;
        ++number;
        std::string_view word;
        if (!line.word(word)) {
            if (number == 1) return false;
            continue;
        }
        if (number == 1) {
            std::string_view name, version;
            if (word != "octopus" || !line.word(name) || name != "script" || !line.word(version) || version != "1" || !line.ends()) return false;
            continue;
        }
        if (word[0] == '#') continue;
        if (ended) return false;
        bool of_steps = script.sessions.empty();
        if (word == "point" || word == "add" || word == "remove" || word == "split") {
            Edit e{};
            e.line = number;
            if (!of_steps || edits == 1000000 || !read_edit(line, word, e)) return false;
            ++edits;
            waiting.push_back(e);
        } else if (word == "stay" || word == "shift" || word == "pull" || word == "shake" || word == "relax" || word == "turn") {
            Plan plan{};
            if (!of_steps || script.plans.size() == 10000 || !read_move(line, word, plan)) return false;
            plan.edits.swap(waiting);
            script.plans.push_back(std::move(plan));
        } else if (word == "session") {
            if (!waiting.empty() || script.sessions.size() == 8) return false;
            script.sessions.emplace_back();
        } else if (word == "wait") {
            Item item{};
            item.line = number;
            if (of_steps || !line.number(item.step, 0, 10000)) return false;
            script.sessions.back().push_back(item);
        } else if (word == "box") {
            Item item{};
            item.kind = 1;
            if (of_steps || boxes == 100000 || !line.place(item.area) || !line.place(item.area + 3)) return false;
            for (int i = 0; i < 3; ++i)
                if (item.area[i] > item.area[i + 3]) return false;
            ++boxes;
            script.sessions.back().push_back(item);
        } else if (word == "end") {
            if (!waiting.empty()) return false;
            ended = true;
        } else {
            return false;
        }
        if (!line.ends()) return false;
    }
    return ended;
}

int main(int, char **argv) {
    std::ifstream file(argv[1], std::ios::binary);
    std::string text((std::istreambuf_iterator<char>(file)), {});
    auto start = std::chrono::steady_clock::now();
    Script script;
    bool whole = read(text, script);
    double seconds = std::chrono::duration<double>(std::chrono::steady_clock::now() - start).count();
    if (!whole) return puts("refused"), 1;
    int64_t sum = 0;
    for (auto &plan : script.plans)
        for (auto &e : plan.edits) {
            sum += e.line;
            for (auto v : e.values) sum += v;
            for (auto v : e.at) sum += v;
        }
    for (auto &session : script.sessions)
        for (auto &item : session) {
            sum += int64_t(item.line) + item.step;
            for (auto v : item.area) sum += v;
        }
    printf("c++ %f %lld\n", seconds, static_cast<long long>(sum));
}
