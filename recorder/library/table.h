// Hash tables from words to values in memory of their own, by linear probing; many small ones share the load of
// threads.
#pragma once
#include <mutex>

#include "base.h"
#include "own_memory.h"
#include "reading.h"

namespace recorder {

template <typename Value>
class Table {
public:
  struct Slot {
    Word key;  // 0 where the slot is free
    Value value;
  };

  Lock lock;

  Value* find(Word key) { return const_cast<Value*>(static_cast<const Table*>(this)->find(key)); }
  const Value* find(Word key) const {
    if (!slots) return nullptr;
    const Slot& slot = slots[place_of(key)];
    return slot.key ? &slot.value : nullptr;
  }

  void put(Word key, const Value& value) {
    if ((used + 1) * 4 > capacity * 3 && !grow()) return stop_recording("no memory was left for its records");
    Slot& slot = slots[place_of(key)];
    if (!slot.key) used++;
    slot = {key, value};
  }

  void erase(Word key) {
    if (!slots) return;
    std::size_t free = place_of(key);
    if (!slots[free].key) return;
    used--;
    slots[free].key = 0;
    for (std::size_t at = next(free); slots[at].key; at = next(at)) {
      std::size_t home = hash(slots[at].key) & (capacity - 1);
      bool stays = free <= at ? free < home && home <= at : free < home || home <= at;
      if (stays) continue;
      slots[free] = slots[at];
      slots[at].key = 0;
      free = at;
    }
  }

  template <typename Visit>
  void each(Visit visit) {
    for (std::size_t at = 0; at < capacity; at++)
      if (slots[at].key) visit(slots[at].key, slots[at].value);
  }

  void clear() {
    if (slots) give_own_pages(slots, capacity * sizeof(Slot));
    slots = nullptr;
    capacity = used = 0;
  }

private:
  static std::size_t hash(Word key) { return (key >> 3) * 0x9E3779B97F4A7C15ull >> 20; }
  std::size_t next(std::size_t at) const { return (at + 1) & (capacity - 1); }

  std::size_t place_of(Word key) const {
    std::size_t at = hash(key) & (capacity - 1);
    while (slots[at].key && slots[at].key != key) at = next(at);
    return at;
  }

  bool grow() {
    Slot* old = slots;
    std::size_t before = capacity, after = before ? before * 2 : 64;
    auto more = static_cast<Slot*>(own_pages(after * sizeof(Slot)));
    if (!more) return false;
    slots = more;
    capacity = after;
    for (std::size_t at = 0; at < before; at++)
      if (old[at].key) slots[place_of(old[at].key)] = old[at];
    if (old) give_own_pages(old, before * sizeof(Slot));
    return true;
  }

  Slot* slots = nullptr;
  std::size_t capacity = 0, used = 0;
};

template <typename Value>
class Tables {
public:
  Table<Value>& of(Word key) { return tables[(key >> 4) * 0x9E3779B97F4A7C15ull >> 54]; }

  void put(Word key, const Value& value) {
    std::lock_guard<Lock> guard(of(key).lock);
    of(key).put(key, value);
  }
  void erase(Word key) {
    std::lock_guard<Lock> guard(of(key).lock);
    of(key).erase(key);
  }
  template <typename Visit>
  void each(Visit visit) {
    for (auto& table : tables) table.each(visit);
  }
  void lock_all() {
    for (auto& table : tables) table.lock.lock();
  }
  void unlock_all() {
    for (auto& table : tables) table.lock.unlock();
  }

private:
  Table<Value> tables[1024];
};

}  // namespace recorder
