// What single steps on a word cost on this machine, with 1, 2 and 4 threads on one word. A thread stores into words of
// its own, as a call keeps its desk's numbers.
#include <algorithm>
#include <atomic>
#include <chrono>
#include <cstdint>
#include <cstdio>
#include <thread>
#include <vector>

namespace {

struct alignas(256) Word {
    std::atomic<std::uint64_t> word{1};
};

struct alignas(256) Own {
    volatile std::uint32_t number = 0;
    alignas(128) volatile std::uint32_t apart = 0;
    // Where a handle lies in memory: two tags, and its parts.
    alignas(128) volatile std::uint16_t handle[7] = {};
};

Word common;

void add(Own&) { common.word.fetch_add(1); }

void exchange(Own&) { common.word.exchange(1); }

void compare(Own&) {
    std::uint64_t seen = common.word.load();
    while (!common.word.compare_exchange_strong(seen, seen + 1)) {
    }
}

void two_adds(Own& own) {
    common.word.fetch_add(1);
    common.word.fetch_sub(1);
    own.number = 1;
}

void two_adds_and_a_store(Own& own) {
    common.word.fetch_add(1);
    own.number = 2;
    common.word.fetch_sub(1);
    own.number = 1;
}

void two_adds_and_two_stores(Own& own) {
    common.word.fetch_add(1);
    own.number = 2;
    own.apart = 0;
    common.word.fetch_sub(1);
    own.number = 1;
}

// As a handle comes and leaves that lies in memory meanwhile, whoever keeps it there.
void two_adds_and_a_handle(Own& own) {
    common.word.fetch_add(1);
    own.number = 2;
    for (int part = 0; part < 7; part++) {
        own.handle[part] = 1;
    }
    const std::uint64_t one = own.handle[2];
    own.handle[0] = 0;
    common.word.fetch_sub(one);
    own.number = 1;
}

// Nanoseconds that a thread waits for a step, where so many take steps for a while.
template <void step(Own&)>
double sample(int threads) {
    using Clock = std::chrono::steady_clock;
    const auto span = std::chrono::microseconds(threads == 1 ? 200 : 5'000);
    std::atomic<int> come{0};
    std::atomic<double> sum{0};
    auto work = [&] {
        Own own;
        come.fetch_add(1);
        while (come.load() < threads) {
        }
        const auto begin = Clock::now();
        long steps = 0;
        auto now = begin;
        for (; now - begin < span; now = Clock::now()) {
            for (int i = 0; i < 500; i++, steps++) {
                step(own);
            }
        }
        sum.fetch_add(std::chrono::duration<double, std::nano>(now - begin).count() / steps);
    };
    std::vector<std::thread> others;
    for (int number = 1; number < threads; number++) {
        others.emplace_back(work);
    }
    work();
    for (auto& other : others) {
        other.join();
    }
    return sum.load() / threads;
}

// The least of one thread's samples; of several threads the middle one, since two that are apart for a while don't
// contend.
template <void step(Own&)>
void tell(const char* name) {
    std::printf("%-52s", name);
    for (int threads : {1, 2, 4}) {
        std::vector<double> samples;
        for (int i = 0; i < (threads == 1 ? 1'000 : 40); i++) {
            samples.push_back(sample<step>(threads));
        }
        std::sort(samples.begin(), samples.end());
        std::printf(" %8.1f", threads == 1 ? samples[0] : samples[samples.size() / 2]);
    }
    std::puts("");
}

}  // namespace

int main() {
    std::printf("%-52s %8d %8d %8d\n", "nanoseconds for a step, by threads on one word", 1, 2, 4);
    tell<add>("a locked add");
    tell<exchange>("an exchange");
    tell<compare>("a load and its compare-exchange");
    tell<two_adds>("two locked adds, and a store");
    tell<two_adds_and_a_store>("the same, and a store between them");
    tell<two_adds_and_two_stores>("the same, and one to another cache line");
    tell<two_adds_and_a_handle>("the same, and a handle in another cache line");
}
