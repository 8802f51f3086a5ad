// The same runs with a mutex and shared pointers: see run.sh.
#include <algorithm>
#include <chrono>
#include <condition_variable>
#include <cstdint>
#include <cstdio>
#include <cstdlib>
#include <memory>
#include <mutex>
#include <thread>
#include <vector>

struct Step {
    uint32_t number;
};

struct Event {
    uint8_t kind;
    bool answered;
    uint32_t session, step;
};

struct Answer {
    uint32_t session, query, step;
    std::vector<uint32_t> vertices;
};

struct Table {
    std::mutex lock;
    std::condition_variable shown;
    std::shared_ptr<const Step> newest = std::make_shared<const Step>(Step{0});
    bool closed = false;
    std::vector<Event> journal;
    std::vector<Answer> answers;

    void publish(uint32_t k) {
        std::shared_ptr<const Step> step = std::make_shared<const Step>(Step{k});
        {
            std::lock_guard<std::mutex> turn(lock);
            std::swap(newest, step);
            journal.push_back({0, false, 0, k});
        }
        shown.notify_all();
    }

    void close() {
        {
            std::lock_guard<std::mutex> turn(lock);
            closed = true;
            journal.push_back({3, false, 0, 0});
        }
        shown.notify_all();
    }

    bool wait_for(uint32_t k) {
        std::unique_lock<std::mutex> turn(lock);
        shown.wait(turn, [&] { return newest->number >= k || closed; });
        return newest->number >= k;
    }

    std::shared_ptr<const Step> pin(uint32_t s) {
        std::lock_guard<std::mutex> turn(lock);
        journal.push_back({1, false, s, newest->number});
        return newest;
    }

    void unpin(uint32_t s, std::shared_ptr<const Step> step, std::vector<Answer> list) {
        std::lock_guard<std::mutex> turn(lock);
        journal.push_back({2, true, s, step->number});
        for (Answer &answer : list) answers.push_back(std::move(answer));
    }
};

static void session(Table &table, uint32_t s, uint32_t boxes, uint32_t wait) {
    if (wait > 0 && !table.wait_for(wait)) return;
    for (uint32_t q = 0; q < boxes; q++) {
        std::shared_ptr<const Step> step = table.pin(s);
        std::vector<Answer> list;
        list.push_back({s, q, step->number, {}});
        table.unpin(s, std::move(step), std::move(list));
    }
}

static double run(uint32_t steps, uint32_t sessions, uint32_t boxes, uint32_t wait) {
    auto start = std::chrono::steady_clock::now();
    Table table;
    table.journal.reserve(steps + 2 * sessions * boxes + 1);
    table.answers.reserve(sessions * boxes);
    std::vector<std::thread> threads;
    for (uint32_t s = 0; s < sessions; s++) threads.emplace_back([&, s] { session(table, s, boxes, wait); });
    for (uint32_t k = 1; k <= steps; k++) table.publish(k);
    table.close();
    for (std::thread &thread : threads) thread.join();
    return std::chrono::duration<double>(std::chrono::steady_clock::now() - start).count();
}

static double best(int rounds, uint32_t steps, uint32_t sessions, uint32_t boxes, uint32_t wait) {
    double least = 1e9;
    for (int i = 0; i < rounds; i++) least = std::min(least, run(steps, sessions, boxes, wait));
    return least;
}

int main(int count, char **words) {
    int rounds = count > 1 ? std::atoi(words[1]) : 5;
    for (uint32_t sessions : {1, 2, 4, 8})
        std::printf("C++      %u sessions: %.0f turns a second\n", sessions, 80000 / best(rounds, 0, sessions, 80000 / sessions, 0));
    for (uint32_t sessions : {0, 8})
        std::printf("C++      %u sessions asleep: %.0f publishes a second\n", sessions, 10000 / best(rounds, 10000, sessions, 1, 10000));
}
