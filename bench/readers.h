// Rows of a cell that is read, of a cache by keys, and of a vector.
#pragma once

#include <type_traits>
#include <unordered_map>

#include "timing.h"

// A row of readers beside a first thread that stores, at once again or after a pause. Only the readers are told.
template <class Store, class Read>
void time_readers(char const *test, char const *peer, int threads, bool pauses, Store store, Read read) {
    if (threads == 1) return;
    auto spent = run(threads, short_chunk, [&](int t, std::uint64_t n) {
        if (t > 0) return read(t, n);
        auto next = Clock::now() + pause_between;
        for (std::uint64_t stores = pauses ? 1 : n; stores > 0; stores--) store();
        while (pauses && Clock::now() < next) __builtin_ia32_pause();
    });
    tell(test, peer, spent, 1, threads);
}

// The rows of a cell that is read, by the writer beside the readers.
template <class Store, class Read>
void read_rows(char const *peer, int threads, std::uint64_t count, Store store, Read read) {
    time_row("read of one cell, no writer", peer, threads, read, count);
    time_readers("read of one cell, a new object each 10 us", peer, threads, true, store, read);
    time_readers("read of one cell, new objects all the time", peer, threads, false, store, read);
}

// What C++ programs write by hand: a reader keeps a copy, and takes another where the version is a new one.
struct Versioned {
    std::atomic<std::uint64_t> version{1};
    std::mutex door;
    std::shared_ptr<Object> current = std::make_shared<Object>();

    void store(std::shared_ptr<Object> next) {
        std::lock_guard<std::mutex> guard(door);
        current.swap(next);
        version.fetch_add(1);
    }
};

struct Reader {
    std::uint64_t seen = 0;
    std::shared_ptr<Object> copy;

    Object *get(Versioned &of) {
        if (std::uint64_t version = of.version.load(); version != seen) {
            std::lock_guard<std::mutex> guard(of.door);
            copy = of.current;
            seen = of.version.load();
        }
        return copy.get();
    }
};

void version_rows(int threads) {
    Apart<Versioned> cell;
    Apart<Reader> readers[most_threads];
    read_rows("libstdc++, by a version", threads, chunk, [&] { cell.value.store(std::make_shared<Object>()); },
              [&](int t, std::uint64_t n) {
                  while (n--) keep(readers[t].value.get(cell.value));
              });
}

std::shared_ptr<Object> owner_of(std::weak_ptr<Object> const &entry) { return entry.lock(); }
std::shared_ptr<Object> owner_of(std::shared_ptr<Object> const &entry) { return entry; }

// A table as C++ programs have it: pointers by keys, behind a mutex.
template <class Pointer> struct Table {
    std::mutex door;
    std::unordered_map<std::uint64_t, Pointer> entries;

    std::shared_ptr<Object> get(std::uint64_t key) {
        std::lock_guard<std::mutex> guard(door);
        auto found = entries.find(key);
        return found == entries.end() ? nullptr : owner_of(found->second);
    }

    void insert(std::uint64_t key, Pointer value) {
        std::lock_guard<std::mutex> guard(door);
        entries[key].swap(value);
    }
};

// The rows of a table of weak pointers, and of one of owners.
void map_rows(int threads) {
    Table<std::weak_ptr<Object>> cache;
    Table<std::shared_ptr<Object>> owned;
    std::vector<std::shared_ptr<Object>> living;
    for (std::uint64_t key = 0; key < keys; key++) {
        living.push_back(std::make_shared<Object>());
        cache.insert(key, living.back());
        owned.insert(key, std::make_shared<Object>());
    }
    Apart<std::uint64_t> at[most_threads] = {{0}, {2'500}, {5'000}, {7'500}};
    auto next = [&at](int t) { return at[t].value = (at[t].value + 7'919) % keys; };
    auto row = [threads](char const *test, auto work) {
        time_row(test, "libstdc++ shared_ptr", threads, [&](int t, std::uint64_t n) {
            while (n--) work(t);
        }, short_chunk);
    };
    row("map of 10,000 keys, lock + release", [&](int t) { keep(cache.get(next(t)).get()); });
    row("map of 10,000 keys, insert of a weak pointer", [&](int t) { cache.insert(next(t), living[t]); });
    row("10,000 own objects by their keys, get + release", [&](int t) { keep(owned.get(next(t)).get()); });
    row("10,000 own objects by their keys, make and insert",
        [&](int t) { owned.insert(next(t), std::make_shared<Object>()); });
}

// A door that is always open.
struct NoDoor {
    void lock() {}
    void unlock() {}
};

// A vector of owners behind a door.
template <class Door> struct Vector {
    Door door;
    std::vector<std::shared_ptr<Object>> all;

    void push(std::shared_ptr<Object> value) {
        std::lock_guard<Door> guard(door);
        all.push_back(std::move(value));
    }

    std::shared_ptr<Object> get(std::uint64_t index) {
        std::lock_guard<Door> guard(door);
        return all[index];
    }

    void set(std::uint64_t index, std::shared_ptr<Object> value) {
        std::lock_guard<Door> guard(door);
        all[index].swap(value);
    }
};

// The rows of a vector. Without a lock its readers alone may be several.
template <class Door> void vector_rows(char const *peer, int threads) {
    bool writes = threads == 1 || !std::is_same_v<Door, NoDoor>;
    Apart<std::shared_ptr<Object>> own[most_threads];
    for (auto &it : own) it.value = std::make_shared<Object>();
    Apart<std::uint64_t> random[most_threads] = {{0}, {1}, {2}, {3}};
    auto next = [&random](int t) {
        random[t].value = random[t].value * 6'364'136'223'846'793'005 + 1'442'695'040'888'963'407;
        return (random[t].value >> 33) % elements;
    };
    Vector<Door> grown;
    auto push = [&](int t, std::uint64_t n) {
        while (n--) grown.push(own[t].value);
    };
    if (writes) {
        auto spent = run(threads, elements / threads, push, std::chrono::milliseconds(0));
        tell("vector, push of a copy, up to 30,000", peer, spent, 0, threads);
    }
    Vector<Door> vector;
    std::vector<std::shared_ptr<Object>> living;
    for (std::uint64_t index = 0; index < elements; index++) {
        living.push_back(std::make_shared<Object>());
        vector.push(living.back());
    }
    time_row("vector of 30,000, get + release at random", peer, threads, [&](int t, std::uint64_t n) {
        while (n--) keep(vector.get(next(t)).get());
    }, short_chunk);
    Apart<std::uint64_t> last[most_threads] = {{0}, {7'500}, {15'000}, {22'500}};
    time_row("vector of 30,000, get + release in order", peer, threads, [&](int t, std::uint64_t n) {
        while (n--) keep(vector.get(last[t].value = (last[t].value + 1) % elements).get());
    }, short_chunk);
    if (!writes) return;
    time_row("vector of 30,000, set of a copy at random", peer, threads, [&](int t, std::uint64_t n) {
        while (n--) vector.set(next(t), own[t].value);
    }, short_chunk);
}

// The row of a cell for weak pointers, where there is one.
template <class Cell, class Weak> void weak_cell_row(char const *peer, int threads, Apart<Weak> const *weak) {
    if constexpr (!std::is_void_v<Cell>) {
        Apart<Cell> cell[most_threads];
        for (int i = 0; i < most_threads; i++) cell[i].value.store(weak[i].value);
        time_row("weak cell load + release, own cell", peer, threads, [&](int t, std::uint64_t n) {
            while (n--) keep(cell[t].value.load());
        });
    }
}
