#include "chunks.h"

#include "table.h"

namespace recorder {

NoteTree chunks;
RECORDER_THREAD LastUsed last_used{};

namespace {

Tables<std::size_t> alignments;

}  // namespace

void Numbers::take_more() {
  static std::atomic<std::uint64_t> given{0};
  constexpr int AT_ONCE = 100;
  last = given.fetch_add(AT_ONCE, std::memory_order_relaxed);
  end = last + AT_ONCE;
}

Notes* NoteTree::make(Word address) {
  auto& branch = branches[address >> (Notes::BITS + BRANCH_BITS)];
  Branch* inner = branch;
  if (!inner) {
    auto fresh = static_cast<Branch*>(own_pages(sizeof(Branch)));
    if (!fresh) return nullptr;
    if (branch.compare_exchange_strong(inner, fresh))
      inner = fresh;
    else
      give_own_pages(fresh, sizeof(Branch));
  }
  auto& place = inner->notes[address >> Notes::BITS & (BRANCH - 1)];
  Notes* notes = place;
  if (notes) return notes;
  auto fresh = static_cast<Notes*>(own_pages(sizeof(Notes)));
  if (!fresh || place.compare_exchange_strong(notes, fresh)) return fresh;
  give_own_pages(fresh, sizeof(Notes));
  return notes;
}

void note_alignment(Word chunk, std::size_t alignment) {
  Notes* notes = chunks.find(chunk);
  if (!notes) return;
  notes->at[Notes::place_of(chunk)].is_aligned = true;
  alignments.put(chunk, alignment);
}

void forget_alignment(Word chunk) { alignments.erase(chunk); }

std::size_t alignment_of(Word chunk, const Note& note) {
  std::size_t* found = note.is_aligned ? alignments.of(chunk).find(chunk) : nullptr;
  return found ? *found : 0;
}

void lock_chunks() { alignments.lock_all(); }
void unlock_chunks() { alignments.unlock_all(); }

}  // namespace recorder
