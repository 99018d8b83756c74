// What `measure soak LEVELS` does, by std::atomic<std::shared_ptr>: four threads make a tree each whose nodes know
// their parents, walk through all of them, and end them. It prints the same lines.
//
// usage: soak LEVELS
#include <atomic>
#include <cstdint>
#include <cstdio>
#include <cstdlib>
#include <ctime>
#include <memory>
#include <thread>
#include <vector>

constexpr unsigned threads = 4;
constexpr int walks = 100'000;

struct Node {
    std::uint64_t fields[4] = {};
    std::atomic<std::shared_ptr<Node>> first, next;
    std::atomic<std::weak_ptr<Node>> up;
};

using Owner = std::shared_ptr<Node>;

std::atomic<Owner> roots[threads];
std::atomic<unsigned> come;

// Waits until all threads have come so often.
void meet(unsigned round) {
    ++come;
    while (come < threads * round)
        __builtin_ia32_pause();
}

double processor_time() {
    timespec t;
    clock_gettime(CLOCK_THREAD_CPUTIME_ID, &t);
    return t.tv_sec * 1e9 + t.tv_nsec;
}

void tell(unsigned number, char const *what, double since, std::uint64_t count) {
    if (number == 0)
        std::printf("soak|%s|%lu|%.0f\n", what, count, (processor_time() - since) / count);
}

Owner tree(unsigned levels, std::uint64_t &made) {
    auto node = std::make_shared<Node>();
    node->fields[0] = made++;
    if (levels > 1)
        for (auto *child : {&node->first, &node->next}) {
            Owner below = tree(levels - 1, made);
            below->up.store(std::weak_ptr<Node>(node));
            child->store(std::move(below));
        }
    return node;
}

std::uint64_t walk(unsigned root, std::uint64_t bits) {
    std::uint64_t met = 0;
    for (Owner at = roots[root].load(); at; bits /= 2) {
        ++met;
        Owner node = std::move(at);
        at = bits % 2 ? node->next.load() : node->first.load();
        if (!at)
            node->up.load().lock();
    }
    return met;
}

void work(unsigned number, unsigned levels) {
    std::uint64_t made = 0, met = 0, random = number;
    double begun = processor_time();
    roots[number].store(tree(levels, made));
    tell(number, "an object made and linked", begun, made);
    meet(1);
    begun = processor_time();
    for (int i = 0; i < walks; ++i) {
        random = random * 6364136223846793005u + 1442695040888963407u;
        met += walk((random >> 40) % threads, random >> 8);
    }
    tell(number, "a load on a walk", begun, met);
    meet(2);
    begun = processor_time();
    roots[number].store(nullptr);
    tell(number, "an object ended", begun, made);
}

int main(int count, char **words) {
    if (count != 2)
        return 1;
    unsigned levels = std::atoi(words[1]);
    std::vector<std::thread> team;
    for (unsigned number = 0; number < threads; ++number)
        team.emplace_back(work, number, levels);
    for (auto &it : team)
        it.join();
}
