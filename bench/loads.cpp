// What a load of a cell costs where several threads load it at one time, and what follows a compare-exchange that failed.
//
// A load takes a fund of the cell by a compare-exchange, turns it into a handle by a fetch_sub on the owners' count, and
// lets the handle go by another. Where 128 funds are taken they are put back. Prints nanoseconds a load, of each thread.
//
//   g++ -std=c++20 -O2 -o loads loads.cpp -lpthread && ./loads
#include <algorithm>
#include <atomic>
#include <chrono>
#include <cstdint>
#include <cstdio>
#include <numeric>
#include <thread>
#include <vector>

#include <immintrin.h>

namespace {

constexpr std::uint64_t one_fund = std::uint64_t{1} << 32;
constexpr std::uint64_t taken_bits = 0xffff;
constexpr std::uint64_t many_taken = 128;
constexpr unsigned most_spins = 64;

struct alignas(64) Word {
    std::atomic<std::uint64_t> of{0};
};

Word cell, owners;

// What is done after a compare-exchange that failed: whether a pause that grows comes, and whether the word that it found
// is taken for the next, or the cell is looked at again.
template <bool pauses, bool uses_found>
void load() {
    std::uint64_t seen = cell.of.load();
    for (unsigned spins = 1;; spins = std::min(2 * spins, most_spins)) {
        std::uint64_t found = seen;
        if (cell.of.compare_exchange_strong(found, seen + 1)) break;
        if (pauses) {
            for (unsigned spin = 0; spin < spins; spin++) _mm_pause();
        }
        seen = uses_found ? found : cell.of.load();
    }
    owners.of.fetch_sub(one_fund - 1);
    for (seen = cell.of.load(); (seen & taken_bits) >= many_taken; seen = cell.of.load()) {
        std::uint64_t funds = (seen & taken_bits) * one_fund;
        owners.of.fetch_add(funds);
        if (cell.of.compare_exchange_strong(seen, seen & ~taken_bits)) break;
        owners.of.fetch_sub(funds);
    }
    owners.of.fetch_sub(1);
}

// Nanoseconds a load, by so many threads for a quarter of a second, and the slowest thread's part of an even share.
struct Times {
    double nanoseconds, least_share;
};

template <bool pauses, bool uses_found>
Times time_of(int threads) {
    cell.of = one_fund;
    owners.of = 256 * one_fund + 1'000'000;
    std::atomic<bool> over{false};
    std::vector<std::uint64_t> loads(threads);
    std::vector<std::thread> all;
    auto start = std::chrono::steady_clock::now();
    for (int number = 0; number < threads; number++) {
        all.emplace_back([&, number] {
            std::uint64_t done = 0;
            for (; !over.load(std::memory_order_relaxed); done += 64) {
                for (int turn = 0; turn < 64; turn++) load<pauses, uses_found>();
            }
            loads[number] = done;
        });
    }
    std::this_thread::sleep_for(std::chrono::milliseconds(250));
    over = true;
    for (auto &it : all) it.join();
    std::chrono::duration<double, std::nano> spent = std::chrono::steady_clock::now() - start;
    double even = static_cast<double>(std::accumulate(loads.begin(), loads.end(), std::uint64_t{0})) / threads;
    return {spent.count() / even, static_cast<double>(*std::min_element(loads.begin(), loads.end())) / even};
}

void print(Times times) { std::printf(" | %.1f (%.0f%%)", times.nanoseconds, 100 * times.least_share); }

}  // namespace

int main() {
    std::puts("threads | look again | use what was found | pause, look again | pause, use what was found");
    for (int threads : {1, 2, 4}) {
        for (int turn = 0; turn < 3; turn++) {
            std::printf("%d", threads);
            print(time_of<false, false>(threads));
            print(time_of<false, true>(threads));
            print(time_of<true, false>(threads));
            print(time_of<true, true>(threads));
            std::puts("");
        }
    }
}
