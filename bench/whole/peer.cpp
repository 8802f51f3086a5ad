// Whole commands in C++, for meshes and scripts that are accepted: the same files in, the same text out.
//   peer cmd scan|surface|box MESH [x0 y0 z0 x1 y1 z1]
//   peer cmd cells MESH x0 y0 z0 x1 y1 z1 all|some
//   peer cmd rings MESH x0 y0 z0 x1 y1 z1 H
//   peer step MESH SCRIPT K
//   peer octo|scan|grid [-t THREADS] [--report FILE] MESH SCRIPT
//   peer again REPORT MESH SCRIPT
// The last but one plays a whole run, with answers by surface and neighbours, by looking at every point, or by a grid
// that is filled at each step. With one thread the steps and the boxes that wait for each follow each other; with more
// a thread makes the steps, each session answers in a thread of its own, and a step is made when no box waits for the
// one before. `again` answers each box about the step that a report says, and prints the lines of the boxes as they
// have to stand in it.
#include "peer_scans.hpp"
#include <condition_variable>
#include <mutex>
#include <thread>

// The vertices on a face of one cell: each face under its least corner.
static std::vector<uint32_t> surface_of(const Mesh &mesh) {
    const size_t points = mesh.points.size();
    List<uint32_t> begin(points + 1);
    std::fill(begin.begin(), begin.end(), 0);
    auto sorted = [](Cell c) {
        auto order = [&](size_t a, size_t b) {
            const uint32_t low = std::min(c[a], c[b]), high = std::max(c[a], c[b]);
            c[a] = low, c[b] = high;
        };
        order(0, 1), order(2, 3), order(0, 2), order(1, 3), order(1, 2);
        return c;
    };
    for (const Cell &cell : mesh.cells) {
        const Cell c = sorted(cell);
        begin[c[0] + 1] += 3, begin[c[1] + 1]++;
    }
    for (size_t v = 0; v < points; v++) begin[v + 1] += begin[v];
    List<uint64_t> faces(begin[points]);
    List<uint32_t> next(begin.begin(), begin.end() - 1);
    for (const Cell &cell : mesh.cells) {
        const Cell c = sorted(cell);
        uint64_t *to = &faces[next[c[0]]];
        to[0] = uint64_t(c[1]) << 32 | c[2], to[1] = uint64_t(c[1]) << 32 | c[3], to[2] = uint64_t(c[2]) << 32 | c[3];
        next[c[0]] += 3;
        faces[next[c[1]]++] = uint64_t(c[2]) << 32 | c[3];
    }
    std::vector<bool> on(points);
    for (uint32_t v = 0; v < points; v++) {
        uint64_t *from = faces.data() + begin[v], *end = faces.data() + begin[v + 1];
        std::sort(from, end);
        for (uint64_t *to; from != end; from = to) {
            to = std::find_if(from, end, [&](uint64_t f) { return f != *from; });
            if (to - from == 1) on[v] = on[*from >> 32] = on[uint32_t(*from)] = true;
        }
    }
    std::vector<uint32_t> list;
    for (uint32_t v = 0; v < points; v++)
        if (on[v]) list.push_back(v);
    return list;
}

static std::vector<uint32_t> scan_of(const Mesh &mesh, const Box &box) {
    std::vector<bool> used(mesh.points.size());
    for (const Cell &cell : mesh.cells)
        for (uint32_t v : cell) used[v] = true;
    std::vector<uint32_t> found;
    for (uint32_t v = 0; v < mesh.points.size(); v++)
        if (used[v] && box.has(mesh.points[v])) found.push_back(v);
    return found;
}

// The cells with all corners, or at least one, among these vertices.
static std::vector<uint32_t> cells_of(const Octo &octo, const std::vector<uint32_t> &found, bool all) {
    std::vector<bool> marks(octo.points.size());
    for (uint32_t v : found) marks[v] = true;
    std::vector<uint32_t> list;
    for (uint32_t v : found)
        for (const uint32_t *i = octo.tables.cells_at.begin(v); i != octo.tables.cells_at.end(v); i++) {
            const Cell &cell = octo.cells[*i];
            if (!all || std::all_of(cell.begin(), cell.end(), [&](uint32_t w) { return marks[w]; })) list.push_back(*i);
        }
    std::sort(list.begin(), list.end());
    list.erase(std::unique(list.begin(), list.end()), list.end());
    return list;
}

// The vertices of each least number of edges from these, and for each its least neighbour one edge nearer.
static void put_rings(Out &out, const Octo &octo, std::vector<uint32_t> ring, long most) {
    std::vector<uint32_t> from(octo.points.size(), GONE);
    for (uint32_t v : ring) from[v] = v;
    for (long n = 0; n <= most; n++) {
        out.text("ring ");
        out.number(n, ' ');
        out.list(ring);
        std::vector<uint32_t> sources, next;
        if (n > 0) {
            for (uint32_t v : ring) sources.push_back(from[v]);
            out.line(sources);
        }
        for (uint32_t v : ring)
            for (const uint32_t *w = octo.tables.near.begin(v); w != octo.tables.near.end(v); w++)
                if (from[*w] == GONE) {
                    from[*w] = v;
                    next.push_back(*w);
                }
        std::sort(next.begin(), next.end());
        ring = std::move(next);
    }
}

static void command(char **args) {
    const std::string_view word = args[0];
    Mesh mesh(args[1]);
    Out out(1);
    Box box{};
    if (word == "surface") return out.list(surface_of(mesh));
    for (size_t a = 0; a < 3; a++) box.lo[a] = std::atoi(args[2 + a]), box.hi[a] = std::atoi(args[5 + a]);
    if (word == "scan") return out.list(scan_of(mesh, box));
    Octo &octo = *new Octo(std::move(mesh)); // what is left is given back with the process
    octo.build();
    octo.look();
    std::vector<uint32_t> found;
    Marks marks;
    out.text("route ");
    out.text(octo.answer(box, found, marks));
    out.text("\n");
    if (word == "cells") out.list(cells_of(octo, found, std::string_view(args[8]) == "all"));
    else if (word == "rings") put_rings(out, octo, found, std::atol(args[8]));
    else out.list(found);
}

static void make(Way &way, const Script &script, uint32_t step) {
    const Plan &plan = script.plans[step - 1];
    for (size_t i = plan.from; i < plan.to; i++) way.edit(script.edits[i]);
    way.move(plan, step);
}

static void step(const char *mesh, const char *name, uint32_t last) {
    Octo &octo = *new Octo(Mesh(mesh));
    const Script script(name);
    if (std::any_of(script.plans.begin(), script.plans.begin() + last,
                    [](const Plan &plan) { return plan.motion == Motion::Relax; }))
        octo.build();
    for (uint32_t k = 1; k <= last; k++) make(octo, script, k);
    Out out(1);
    out.text("# vtk DataFile Version 3.0\noctopus mesh\nASCII\nDATASET UNSTRUCTURED_GRID\nPOINTS ");
    out.number(int64_t(octo.points.size()), ' ');
    out.text("int\n");
    for (const Place &p : octo.points)
        for (size_t a = 0; a < 3; a++) out.number(p.c[a], a < 2 ? ' ' : '\n');
    const int64_t live =
        std::count_if(octo.cells.begin(), octo.cells.end(), [](const Cell &cell) { return cell[0] != GONE; });
    out.text("CELLS ");
    out.number(live, ' ');
    out.number(5 * live, '\n');
    for (const Cell &cell : octo.cells)
        if (cell[0] != GONE) {
            out.text("4 ");
            for (size_t k = 0; k < 4; k++) out.number(cell[k], k < 3 ? ' ' : '\n');
        }
    out.text("CELL_TYPES ");
    out.number(live, '\n');
    for (int64_t i = 0; i < live; i++) out.text("10\n");
}

struct Answer {
    const char *route = "scan";
    std::vector<uint32_t> found;
};

struct Event {
    const char *word;
    uint32_t session, step;
};

struct Run {
    Way &way;
    const Script &script;
    std::vector<std::vector<const Box *>> boxes; // by the step that they wait for
    std::vector<std::vector<Answer>> answers;
    std::vector<Event> events;
    std::mutex lock;
    std::condition_variable published, answered;
    int64_t newest = -1;
    size_t open = 0; // boxes of the newest step without an answer

    Run(Way &way, const Script &script)
        : way(way), script(script), boxes(script.plans.size() + 1), answers(script.sessions.size()) {
        for (size_t s = 0; s < answers.size(); s++) {
            answers[s].resize(script.sessions[s].size());
            for (const Box &box : script.sessions[s]) boxes[box.step].push_back(&box);
        }
    }

    void answer(const Box &box, Marks &marks) {
        Answer &to = answers[box.session][box.index];
        to.route = way.answer(box, to.found, marks);
    }

    void advance(uint32_t k) {
        if (k > 0) make(way, script, k);
        if (!boxes[k].empty()) way.look();
        const std::lock_guard<std::mutex> held(lock);
        if (k > 0) events.push_back({"publish", GONE, k});
        newest = k;
        open = boxes[k].size();
        if (open) published.notify_all();
    }

    void alone() {
        Marks marks;
        for (uint32_t k = 0; k < boxes.size(); k++) {
            advance(k);
            for (const Box *box : boxes[k]) {
                events.push_back({"pin", box->session, k});
                answer(*box, marks);
                events.push_back({"unpin", box->session, k});
            }
        }
    }

    void session(size_t s) {
        Marks marks;
        std::unique_lock<std::mutex> held(lock);
        for (const Box &box : script.sessions[s]) {
            published.wait(held, [&] { return newest >= int64_t(box.step); });
            events.push_back({"pin", uint32_t(s), box.step});
            held.unlock();
            answer(box, marks);
            held.lock();
            events.push_back({"unpin", uint32_t(s), box.step});
            if (--open == 0) answered.notify_one();
        }
    }

    void together() {
        std::vector<std::thread> sessions;
        for (size_t s = 0; s < answers.size(); s++) sessions.emplace_back([this, s] { session(s); });
        for (uint32_t k = 0; k < boxes.size(); k++) {
            advance(k);
            std::unique_lock<std::mutex> held(lock);
            answered.wait(held, [&] { return open == 0; });
        }
        for (std::thread &thread : sessions) thread.join();
    }
};

static void put_box(Out &out, uint32_t index, uint32_t step, const char *route, const std::vector<uint32_t> &found) {
    out.text("box ");
    out.number(index, ' ');
    out.text("step ");
    out.number(step, ' ');
    out.text("route ");
    out.text(route);
    out.text(" ");
    out.list(found);
}

static void put_report(Out &out, const Run &run) {
    out.text("octopus report 1\nsteps ");
    out.number(int64_t(run.script.plans.size()), '\n');
    out.text("sessions ");
    out.number(int64_t(run.answers.size()), '\n');
    for (size_t s = 0; s < run.answers.size(); s++) {
        out.text("session ");
        out.number(int64_t(s), ' ');
        out.text("boxes ");
        out.number(int64_t(run.answers[s].size()), '\n');
        for (const Box &box : run.script.sessions[s])
            put_box(out, box.index, box.step, run.answers[s][box.index].route, run.answers[s][box.index].found);
    }
    out.text("journal ");
    out.number(int64_t(run.events.size() + 1), '\n');
    for (const Event &event : run.events) {
        out.text(event.word);
        out.text(" ");
        if (event.session != GONE) out.number(event.session, ' ');
        out.number(event.step, '\n');
    }
    out.text("close\nend\n");
}

static Way &way_of(std::string_view word, const char *mesh, int threads) {
    if (word == "scan") return *new Scan(Mesh(mesh));
    if (word == "grid") return *new Grid(Mesh(mesh));
    Octo &octo = *new Octo(Mesh(mesh));
    octo.threads = threads;
    octo.build();
    return octo;
}

static void run(std::string_view word, int count, char **args) {
    int threads = 1, k = 0;
    const char *report = nullptr;
    for (; k + 1 < count && args[k][0] == '-'; k += 2) {
        if (std::string_view(args[k]) == "-t") threads = std::atoi(args[k + 1]);
        else report = args[k + 1];
    }
    Way &way = way_of(word, args[k], threads);
    way.threads = threads;
    const Script script(args[k + 1]);
    Run &run = *new Run(way, script);
    if (threads > 1) run.together();
    else run.alone();
    const int file = !report                           ? -1
                     : std::string_view(report) == "-" ? 1
                                                       : open(report, O_WRONLY | O_CREAT | O_TRUNC, 0666);
    if (file < 0) return;
    Out out(file);
    put_report(out, run);
}

// The steps that a report says, session by session.
static void take_steps(const char *report, Script &script) {
    const File file(report);
    Words words{file.text};
    for (auto &boxes : script.sessions)
        for (Box &box : boxes) {
            words.to("\nbox ");
            words.count();
            words.word();
            box.step = words.count();
        }
}

static void again(char **args) {
    Octo &octo = *new Octo(Mesh(args[1]));
    octo.build();
    Script script(args[2]);
    take_steps(args[0], script);
    Run run(octo, script);
    run.alone();
    Out out(1);
    for (size_t s = 0; s < script.sessions.size(); s++)
        for (const Box &box : script.sessions[s])
            put_box(out, box.index, box.step, run.answers[s][box.index].route, run.answers[s][box.index].found);
}

int main(int count, char **args) {
    const std::string_view word = count > 3 ? args[1] : "";
    if (word == "cmd") command(args + 2);
    else if (word == "step" && count > 4) step(args[2], args[3], uint32_t(std::atol(args[4])));
    else if (word == "again" && count > 4) again(args + 2);
    else if (word == "octo" || word == "scan" || word == "grid") run(word, count - 2, args + 2);
    else return 2;
    _exit(0);
}
