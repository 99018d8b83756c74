#include "samples.h"

#include <algorithm>

#include "chunks.h"
#include "control_blocks.h"
#include "own_memory.h"

namespace recorder {
namespace {

constexpr unsigned char ENOUGH = 16;       // plain ones, for a place without control blocks
constexpr unsigned char MANY_PLAIN = 4;    // beside control blocks, for a place that asks for others
constexpr std::uint32_t MOST_MADE = 4096;  // without a sign of either

// Of a chunk its first and its last words, where control blocks lie: those of arrays are at the end.
struct Ends {
  static constexpr std::size_t FIRST = 4, LAST = 8, WHOLE = FIRST + LAST;
  Word words[WHOLE];

  bool has_block() const { return std::any_of(words, words + WHOLE, is_control_block_table); }
  bool is_empty() const {
    return std::all_of(words, words + WHOLE, [](Word it) { return !it; });
  }
};

void decide(Place& place) {
  int plain = place.plain, blocks = place.blocks;
  auto before = place.role.load();
  if (blocks && plain >= MANY_PLAIN && place.rule.kind != Rule::END)
    place.role = Place::THROUGH;
  else if (blocks)
    place.role = Place::BLOCKS;
  else if (plain >= ENOUGH)
    place.role = Place::PLAIN;
  if (place.role != before) forget_answer(place.code);
}

void learn_from_ends(Place& place, const Ends& ends) {
  if (place.role == Place::THROUGH || ends.is_empty()) return;
  auto& number = ends.has_block() ? place.blocks : place.plain;
  if (number < 200) number++;
  decide(place);
}

// A chunk that may be given back while it is looked at: it is read by the kernel.
void look_at(Place& place, Word chunk) {
  Notes* notes = chunks.find(chunk);
  if (!notes) return;
  const Trace* trace = trace_of(notes->at[Notes::place_of(chunk)].trace);
  Word head = 0;
  if (!trace || trace->maker != place.code || !read_safely(chunk - WORD, &head, WORD)) return;
  std::size_t count = ((head & ~Word(7)) - WORD) / WORD, last = std::min(count, Ends::LAST);
  Ends ends{};
  bool is_there = read_safely(chunk, ends.words, std::min(count, Ends::FIRST) * WORD) &&
                  read_safely(chunk + (count - last) * WORD, ends.words + Ends::FIRST, last * WORD);
  if (is_there) learn_from_ends(place, ends);
}

}  // namespace

void learn(Place& place, const Word* memory, std::size_t bytes) {
  std::size_t count = bytes / WORD, last = std::min(count, Ends::LAST);
  Ends ends{};
  std::copy_n(memory, std::min(count, Ends::FIRST), ends.words);
  std::copy_n(memory + count - last, last, ends.words + Ends::FIRST);
  learn_from_ends(place, ends);
}

void look_at_samples(Place& place) {
  std::uint32_t made = ++place.made;
  if (made < 16 || made & (made - 1)) return;
  if (made >= MOST_MADE) return static_cast<void>(place.role = Place::PLAIN);
  Samples* samples = place.samples;
  for (int at = 0; samples && at < Samples::COUNT; at++)
    if (Word chunk = samples->chunks[at]) look_at(place, chunk);
}

void add_sample(Place& place, Word chunk) {
  Samples* samples = place.samples;
  if (!samples) {
    auto fresh = static_cast<Samples*>(own_room(sizeof(Samples)));
    if (!fresh) return;
    if (place.samples.compare_exchange_strong(samples, fresh)) samples = fresh;
  }
  samples->chunks[place.made % Samples::COUNT] = chunk;
}

}  // namespace recorder
