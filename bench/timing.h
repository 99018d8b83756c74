// How long calls take, and how it is told: lines "test|peer|threads|nanoseconds|share".
#pragma once

#include <algorithm>
#include <array>
#include <atomic>
#include <chrono>
#include <cstdint>
#include <cstdio>
#include <ctime>
#include <memory>
#include <mutex>
#include <thread>
#include <vector>

using Clock = std::chrono::steady_clock;

constexpr auto span = std::chrono::milliseconds(3);
constexpr std::uint64_t chunk = 2000;
// Fewer where threads wait for each other, so that they end together.
constexpr std::uint64_t short_chunk = 100;
constexpr int most_threads = 4;
constexpr int most_observers = 1000;
constexpr int chain_length = 4095;
constexpr std::uint64_t keys = 10'000;
constexpr std::uint64_t elements = 30'000;
// How long a writer waits from one store to the next, where it doesn't store all the time.
constexpr auto pause_between = std::chrono::microseconds(10);

template <class T> void keep(T const &value) { asm volatile("" : : "r,m"(value) : "memory"); }

struct Object {
    std::uint64_t fields[4] = {1, 2, 3, 4};
};

// An object with a value of 4 KiB, on which a thread works behind a door.
struct PageObject {
    std::uint64_t fields[4] = {1, 2, 3, 4};
    std::array<std::uint64_t, 512> page;
    std::mutex door;
    PageObject() { page.fill(1); }
};

template <class T> struct alignas(128) Apart {
    T value;
};

struct Spent {
    double wall, processor, operations;
};

double processor_time() {
    timespec t;
    clock_gettime(CLOCK_THREAD_CPUTIME_ID, &t);
    return t.tv_sec * 1e9 + t.tv_nsec;
}

// The threads meet, and work in chunks until a common moment; in one chunk each, where they have no time for more.
template <class Work>
std::vector<Spent> run(int threads, std::uint64_t count, Work work, std::chrono::milliseconds time = span) {
    std::atomic<int> ready{0};
    std::atomic<std::int64_t> end{0};
    std::vector<Spent> spent(threads);
    std::vector<std::thread> workers;
    for (int thread = 0; thread < threads; thread++) {
        workers.emplace_back([&, thread] {
            if (++ready == threads) end = (Clock::now() + time).time_since_epoch().count();
            while (end == 0) __builtin_ia32_pause();
            auto start = Clock::now();
            double before = processor_time(), operations = 0;
            do {
                work(thread, count);
                operations += count;
            } while (Clock::now().time_since_epoch().count() < end);
            double wall = std::chrono::duration<double, std::nano>(Clock::now() - start).count();
            spent[thread] = {wall, processor_time() - before, operations};
        });
    }
    for (auto &worker : workers) worker.join();
    return spent;
}

// The least part of its time, of 100, that a thread had a processor, or that it shared with the others.
double share_of(std::vector<Spent> const &spent) {
    double share = 1, least = 1e18, most = 0;
    for (auto const &s : spent) {
        share = std::min(share, s.processor / s.wall);
        least = std::min(least, s.wall), most = std::max(most, s.wall);
    }
    return 100 * std::min(share, least / most);
}

// A line: the time of some of the threads by their operations.
void tell(char const *test, char const *peer, std::vector<Spent> const &spent, int from, int to) {
    double wall = 0, operations = 0;
    for (int t = from; t < to; t++) wall += spent[t].wall, operations += spent[t].operations;
    std::printf("%s|%s|%d|%.2f|%.0f\n", test, peer, int(spent.size()), wall / operations, share_of(spent));
}

template <class Work>
void time_row(char const *test, char const *peer, int threads, Work work, std::uint64_t count = chunk) {
    tell(test, peer, run(threads, count, work), 0, threads);
}

// A row in which the first thread does something else than the others, and a line for each.
template <class First, class Others>
void time_beside(char const *test, char const *others_test, char const *peer, int threads, First first, Others others) {
    auto spent = run(threads, short_chunk, [&](int t, std::uint64_t n) { t == 0 ? first(t, n) : others(t, n); });
    tell(test, peer, spent, 0, 1);
    if (threads > 1) tell(others_test, peer, spent, 1, threads);
}

