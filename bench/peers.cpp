// What a caller waits for shared_ptr, weak_ptr and atomic shared_ptr of libstdc++ and of Boost, by thread count.
// Prints lines "test|peer|threads|nanoseconds|share", so many of each as the argument says, as the program `measure` of
// crates/ and arc.rs do.
#include <cstdlib>
#include <utility>

#include "readers.h"

#if __has_include(<boost/smart_ptr/make_shared.hpp>)
#include <boost/smart_ptr/atomic_shared_ptr.hpp>
#include <boost/smart_ptr/make_shared.hpp>
#include <boost/smart_ptr/weak_ptr.hpp>
#define WITH_BOOST
#endif

template <class Shared, class Weak, class Cell, class WeakCell, Shared (*make)()> struct Peer {
    Apart<Shared> own[most_threads];
    Apart<Weak> weak[most_threads];
    Apart<Cell> cell[most_threads];
    Apart<Cell> common;
    Apart<Cell> vacant;
    // Of the observers each fourth has ended.
    std::vector<Weak> observers;
    std::vector<Shared> living;

    Peer() {
        for (int i = 0; i < most_threads; i++) own[i].value = make(), weak[i].value = own[i].value;
        for (int i = 0; i < most_observers; i++) {
            Shared observer = make();
            observers.push_back(observer);
            if (i % 4 > 0) living.push_back(observer);
        }
    }

    // Before each row of cells: what they hold.
    void fill() {
        for (int i = 0; i < most_threads; i++) cell[i].value.store(own[i].value);
        common.value.store(own[0].value);
    }

    void rows(char const *peer, int threads) {
        time_row("make + end", peer, threads, [](int, std::uint64_t n) {
            while (n--) keep(make().get());
        });
        time_row("share + release, own object", peer, threads, [this](int t, std::uint64_t n) {
            while (n--) {
                Shared copy = own[t].value;
                keep(copy.get());
            }
        });
        time_row("share + release, one object", peer, threads, [this](int, std::uint64_t n) {
            while (n--) {
                Shared copy = own[0].value;
                keep(copy.get());
            }
        }, short_chunk);
        time_row("downgrade + release_weak, own object", peer, threads, [this](int t, std::uint64_t n) {
            while (n--) {
                Weak copy = own[t].value;
                keep(copy);
            }
        });
        time_row("share + release of a weak pointer, own object", peer, threads, [this](int t, std::uint64_t n) {
            while (n--) {
                Weak copy = weak[t].value;
                keep(copy);
            }
        });
        time_row("use_count, own object", peer, threads, [this](int t, std::uint64_t n) {
            while (n--) keep(own[t].value.use_count());
        });
        time_row("read of a field, own object", peer, threads, [this](int t, std::uint64_t n) {
            while (n--) keep(own[t].value->fields[0]);
        });
        time_row("lock + release, own object", peer, threads, [this](int t, std::uint64_t n) {
            while (n--) keep(weak[t].value.lock().get());
        });
        cell_rows(peer, threads);
        if (threads == 1) alone_rows(peer);
    }

    void alone_rows(char const *peer) {
        time_row("lock + release, each of 1,000 observers", peer, 1, [this](int, std::uint64_t) {
            std::uint64_t count = 0;
            for (Weak const &observer : observers) {
                if (Shared owner = observer.lock()) count++;
            }
            keep(count);
        }, most_observers);
    }

    void cell_rows(char const *peer, int threads) {
        fill();
        time_row("cell load + release, own cell", peer, threads, [this](int t, std::uint64_t n) {
            while (n--) keep(cell[t].value.load().get());
        });
        time_row("load of an empty cell, one cell", peer, threads, [this](int, std::uint64_t n) {
            while (n--) keep(vacant.value.load().get());
        }, short_chunk);
        weak_cell_row<WeakCell>(peer, threads, weak);
        read_rows(peer, threads, short_chunk, [this] { common.value.store(make()); },
                  [this](int, std::uint64_t n) {
                      while (n--) keep(common.value.load().get());
                  });
        common.value.store(own[0].value);
        time_row("cell store of a copy, own cell", peer, threads, [this](int t, std::uint64_t n) {
            while (n--) cell[t].value.store(own[t].value);
        });
        time_row("cell exchange, own cell", peer, threads, [this](int t, std::uint64_t n) {
            Shared handle = own[t].value;
            while (n--) handle = cell[t].value.exchange(std::move(handle));
            keep(handle.get());
        });
        time_row("cell compare_exchange of a copy, own cell", peer, threads, [this](int t, std::uint64_t n) {
            Shared expected = own[t].value;
            while (n--) keep(cell[t].value.compare_exchange_strong(expected, own[t].value));
        });
        time_beside(
            "cell store of a copy, others load", "cell load + release, the first stores", peer, threads,
            [this](int t, std::uint64_t n) {
                while (n--) common.value.store(own[t].value);
            },
            [this](int, std::uint64_t n) {
                while (n--) keep(common.value.load().get());
            });
        time_row("update of a counter, one cell", peer, threads, [this](int, std::uint64_t n) {
            while (n--) update();
        }, short_chunk);
    }

    void update() {
        Shared old = common.value.load(), next;
        do {
            next = make();
            next->fields[0] = old->fields[0] + 1;
        } while (!common.value.compare_exchange_weak(old, next));
    }
};

template <template <class> class Pointer> struct Node {
    std::uint64_t fields[4] = {1, 2, 3, 4};
    Pointer<Node> next;
};

// Nodes that own the next one: a stack whose head is a cell, and chains that end with their head.
template <template <class> class Pointer, class Cell, Pointer<Node<Pointer>> (*make)()> struct Nodes {
    using Owner = Pointer<Node<Pointer>>;
    Apart<Cell> head;

    // The first node stays.
    Nodes() { head.value.store(make()); }

    void push() {
        Owner node = make();
        node->next = head.value.load();
        while (!head.value.compare_exchange_weak(node->next, node)) {}
    }

    void pop() {
        Owner top = head.value.load();
        while (top && !head.value.compare_exchange_weak(top, top->next)) {}
        keep(top.get());
    }

    static Owner chain() {
        Owner first;
        for (int i = 0; i < chain_length; i++) {
            Owner node = make();
            node->next = std::move(first);
            first = std::move(node);
        }
        return first;
    }

    // Only the end of a chain is timed.
    static std::vector<Spent> end_chains() {
        Spent spent{0, 0, 0};
        while (spent.wall < std::chrono::duration<double, std::nano>(span).count()) {
            Owner first = chain();
            double before = processor_time();
            auto start = Clock::now();
            first.reset();
            spent.wall += std::chrono::duration<double, std::nano>(Clock::now() - start).count();
            spent.processor += processor_time() - before;
            spent.operations += chain_length;
        }
        return {spent};
    }

    void rows(char const *peer, int threads) {
        time_row("stack push + pop", peer, threads, [this](int, std::uint64_t n) {
            while (n--) push(), pop();
        }, short_chunk);
        if (threads == 1) tell("end of a chain of 4,095, each", peer, end_chains(), 0, 1);
    }
};

// Objects with a value of 4 KiB, by one thread alone.
template <class Shared, Shared (*make)()> void page_rows(char const *peer) {
    time_row("make + end, value of 4 KiB", peer, 1, [](int, std::uint64_t n) {
        while (n--) keep(make().get());
    });
    Shared owner = make();
    time_row("visit, value of 4 KiB", peer, 1, [&](int, std::uint64_t n) {
        while (n--) {
            std::lock_guard<std::mutex> guard(owner->door);
            keep(++owner->page[7]);
        }
    });
}

std::shared_ptr<Object> make_std() { return std::make_shared<Object>(); }
std::shared_ptr<Node<std::shared_ptr>> make_std_node() { return std::make_shared<Node<std::shared_ptr>>(); }
std::shared_ptr<PageObject> make_std_page() { return std::make_shared<PageObject>(); }
#ifdef WITH_BOOST
boost::shared_ptr<PageObject> make_boost_page() { return boost::make_shared<PageObject>(); }
boost::shared_ptr<Object> make_boost() { return boost::make_shared<Object>(); }
boost::shared_ptr<Node<boost::shared_ptr>> make_boost_node() { return boost::make_shared<Node<boost::shared_ptr>>(); }
#endif

int main(int count, char **words) {
    int rounds = count > 1 ? std::atoi(words[1]) : 1;
    Peer<std::shared_ptr<Object>, std::weak_ptr<Object>, std::atomic<std::shared_ptr<Object>>,
         std::atomic<std::weak_ptr<Object>>, make_std> standard;
    Nodes<std::shared_ptr, std::atomic<std::shared_ptr<Node<std::shared_ptr>>>, make_std_node> standard_nodes;
#ifdef WITH_BOOST
    Peer<boost::shared_ptr<Object>, boost::weak_ptr<Object>, boost::atomic_shared_ptr<Object>, void, make_boost> boosted;
    Nodes<boost::shared_ptr, boost::atomic_shared_ptr<Node<boost::shared_ptr>>, make_boost_node> boosted_nodes;
#endif
    for (int round = 0; round < rounds; round++) {
        page_rows<std::shared_ptr<PageObject>, make_std_page>("libstdc++ shared_ptr");
#ifdef WITH_BOOST
        page_rows<boost::shared_ptr<PageObject>, make_boost_page>("Boost shared_ptr");
#endif
        for (int threads : {1, 2, 4}) {
            standard.rows("libstdc++ shared_ptr", threads);
            standard_nodes.rows("libstdc++ shared_ptr", threads);
            version_rows(threads);
            map_rows(threads);
            vector_rows<NoDoor>("libstdc++ shared_ptr", threads);
            vector_rows<std::mutex>("libstdc++, a mutex", threads);
#ifdef WITH_BOOST
            boosted.rows("Boost shared_ptr", threads);
            boosted_nodes.rows("Boost shared_ptr", threads);
#endif
        }
    }
}
