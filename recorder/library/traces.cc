#include "traces.h"

#include <algorithm>
#include <cstring>
#include <mutex>
#include <new>

#include "own_memory.h"
#include "places.h"
#include "samples.h"
#include "table.h"
#include "threads.h"
#include "walks.h"

namespace recorder {
namespace {

// A walk and what it asks need some room on the stack.
constexpr std::size_t ROOM = 4096;
constexpr int MOST_THROUGH = 8;

Tables<TraceNumber> numbers;  // by the traces' keys
Lock adding;

constexpr std::uint32_t OF_A_TABLE = 1 << 12, TABLES = 1 << 12;
std::atomic<const Trace**> tables[TABLES];  // all traces, in the order of their numbers
std::uint32_t last_number = 0;

TraceNumber kept(std::uint64_t key, Word maker, const Word* frames, int count) {
  std::lock_guard<Lock> guard(adding);
  std::uint32_t number = last_number + 1;
  if (number >= OF_A_TABLE * TABLES) return 0;
  auto& table = tables[number / OF_A_TABLE];
  if (!table) table = static_cast<const Trace**>(own_pages(OF_A_TABLE * WORD));
  std::size_t bytes = sizeof(Trace) + static_cast<std::size_t>(count - 1) * WORD;
  auto trace = static_cast<Trace*>(table ? own_room(bytes) : nullptr);
  if (!trace) return 0;
  trace->key = key;
  trace->maker = maker;
  trace->count = count;
  std::memcpy(trace->frames, frames, static_cast<std::size_t>(count) * WORD);
  table[number % OF_A_TABLE] = trace;
  return last_number = number;
}

bool is_same(TraceNumber number, std::uint64_t key, const Word* frames, int count) {
  const Trace* it = trace_of(number);
  return it->key == key && it->count == count &&
         !std::memcmp(it->frames, frames, static_cast<std::size_t>(count) * WORD);
}

// The numbers found last, without a lock.
std::atomic<TraceNumber> latest[1 << 12];

TraceNumber number_of(Word maker, const Word* frames, int count) {
  std::uint64_t key = 0;
  for (int at = 0; at < count; at++) key = (key ^ frames[at]) * 0x9E3779B97F4A7C15ull, key ^= key >> 29;
  auto& last = latest[key >> 52];
  TraceNumber number = last.load(std::memory_order_acquire);
  if (number && is_same(number, key, frames, count)) return number;
  for (Word at = key;; at++) {
    if (!at) continue;
    auto& table = numbers.of(at);
    std::lock_guard<Lock> guard(table.lock);
    TraceNumber* found = table.find(at);
    if (found && !is_same(*found, key, frames, count)) continue;
    number = found ? *found : kept(key, maker, frames, count);
    if (!found && number) table.put(at, number);
    last.store(number, std::memory_order_release);
    return number;
  }
}

// All frames that are wanted from here on, with what tells that it is the same walk again.
TraceNumber walked(Frame frame, const Place* place, Walk& walk) {
  Word frames[MOST_FRAMES], maker = frame.code;
  int count = 0, most = std::min(frames_wanted, MOST_FRAMES);
  while (place && count < most) {
    frames[count++] = frame.code;
    if (count == most || !walk.step(frame, place->rule)) break;
    place = place_of(frame.code);
  }
  walk.is_told &= place != nullptr;
  walk.finish();
  return walk.trace = count ? number_of(maker, frames, count) : 0;
}

KnownWalks* walks_of(Place& place) {
  KnownWalks* walks = place.walks;
  if (walks) return walks;
  auto fresh = static_cast<KnownWalks*>(own_room(sizeof(KnownWalks)));
  if (fresh) fresh->code = place.code;
  return fresh && place.walks.compare_exchange_strong(walks, fresh) ? fresh : walks;
}

void keep(KnownWalks& walks, const Walk& walk) {
  int added = walks.added++;
  void* room = walk.is_told && walk.trace && added < KnownWalks::MOST_ADDED ? own_room(sizeof(Walk)) : nullptr;
  if (room) walks.walks[added % KnownWalks::COUNT] = new (room) Walk(walk);
}

TraceNumber known_or_walked(const Frame& frame, Place& place) {
  KnownWalks* walks = walks_of(place);
  if (TraceNumber known = walks ? walks->trace_from(frame.stack, frame.base) : 0) return known;
  Walk walk(frame);
  TraceNumber trace = walked(frame, &place, walk);
  if (walks) keep(*walks, walk);
  return trace;
}

TraceNumber of_place_alone(Place& place) {
  TraceNumber number = place.trace.load(std::memory_order_relaxed);
  if (number) return number;
  Word code = place.code;
  number = number_of(code, &code, 1);
  place.trace.store(number, std::memory_order_relaxed);
  return number;
}

}  // namespace

int frames_wanted = 0;

const Trace* trace_of(TraceNumber number) {
  return number ? tables[number / OF_A_TABLE].load(std::memory_order_acquire)[number % OF_A_TABLE] : nullptr;
}

void lock_traces() {
  numbers.lock_all();
  lock_places();
  adding.lock();
  lock_room();
}

void unlock_traces() {
  unlock_room();
  adding.unlock();
  unlock_places();
  numbers.unlock_all();
}

Taken trace_of_memory(Frame frame) {
  if (!frames_wanted || room_on_stack() < ROOM) return {0, nullptr};
  Place* place = place_of(frame.code);
  for (int depth = 0; place && place->role == Place::THROUGH && depth < MOST_THROUGH; depth++) {
    Frame caller = frame;
    if (!step(caller, place->rule)) break;
    frame = caller;
    place = place_of(frame.code);
  }
  if (!place) return {0, nullptr};
  auto role = place->role.load(std::memory_order_relaxed);
  if (role == Place::PLAIN) return {of_place_alone(*place), nullptr};
  if (role == Place::UNKNOWN) look_at_samples(*place);
  return {known_or_walked(frame, *place), role == Place::UNKNOWN ? place : nullptr};
}

TraceNumber known_trace_of_memory(Word code, Word stack, Word base) {
  Frame frame{code, stack, base};
  Place* place = known_place(code);
  if (place && place->role.load(std::memory_order_relaxed) == Place::THROUGH)
    place = step(frame, place->rule) ? known_place(frame.code) : nullptr;
  if (!place) return 0;
  auto role = place->role.load(std::memory_order_relaxed);
  TraceNumber plain = role == Place::PLAIN ? place->trace.load(std::memory_order_relaxed) : 0;
  KnownWalks* walks = role == Place::BLOCKS ? place->walks.load(std::memory_order_acquire) : nullptr;
  if (plain) plain_places.add(place->code, plain);
  if (walks) block_places.add(walks);
  if (!known_place(place->code)) forget_answers();  // (a library was closed meanwhile)
  return walks ? walks->trace_from(frame.stack, frame.base) : plain;
}

void forget_answers() {
  plain_places.forget_all();
  block_places.forget_all();
}

void forget_answer(Word code) {
  plain_places.forget(code);
  block_places.forget(code);
}

TraceNumber trace_of_block(Frame frame) {
  Place* place = frames_wanted && room_on_stack() >= ROOM ? place_of(frame.code) : nullptr;
  return place ? known_or_walked(frame, *place) : 0;
}

void learn_from(TraceNumber trace, const Word* memory, std::size_t bytes) {
  const Trace* it = trace_of(trace);
  Place* place = it ? known_place(it->maker) : nullptr;
  if (place) learn(*place, memory, bytes);
}

}  // namespace recorder
