// The chunks that the program took from malloc and hasn't given back: a note for each, at a place that follows from
// its address.
#pragma once
#include "traces.h"

namespace recorder {

struct Note {
  static constexpr int BITS_OF_NUMBER = 38;
  std::uint64_t number : BITS_OF_NUMBER;  // in the order of the calls, from 1; 0 where there is no chunk
  std::uint64_t trace : 24;
  std::uint64_t is_aligned : 1;  // to what was asked for
  std::uint64_t is_sample : 1;   // when it is given back it shows what is made at its place
};
static_assert(sizeof(Note) == sizeof(std::uint64_t), "one word");

// The notes of 4 MB of addresses, where each multiple of 16 has its own.
struct Notes {
  static constexpr int BITS = 22, COUNT = 1 << (BITS - 4), OF_A_PAGE = 512, PAGES = COUNT / OF_A_PAGE;

  Note at[COUNT];
  bool is_used[PAGES];

  static std::size_t place_of(Word address) { return address >> 4 & (COUNT - 1); }
};

// All notes, by the upper bits of the address.
class NoteTree {
public:
  // Null where the address has none yet.
  Notes* find(Word address) const {
    Branch* branch = branches[address >> (Notes::BITS + BRANCH_BITS)].load(std::memory_order_acquire);
    return branch ? branch->notes[address >> Notes::BITS & (BRANCH - 1)].load(std::memory_order_acquire) : nullptr;
  }
  Notes* make(Word address);  // null where no memory is left

  template <typename Visit>
  void each(Visit visit) const {
    for (std::size_t high = 0; high < MOST; high++)
      if (Branch* branch = branches[high])
        for (std::size_t low = 0; low < BRANCH; low++)
          if (Notes* notes = branch->notes[low]) each_of(*notes, (high * BRANCH + low) << Notes::BITS, visit);
  }

private:
  static constexpr int BRANCH_BITS = 12, ADDRESS_BITS = 47;
  static constexpr std::size_t BRANCH = 1 << BRANCH_BITS;
  static constexpr std::size_t MOST = std::size_t(1) << (ADDRESS_BITS - Notes::BITS - BRANCH_BITS);

  struct Branch {
    std::atomic<Notes*> notes[BRANCH];
  };

  template <typename Visit>
  static void each_of(const Notes& notes, Word from, Visit visit) {
    for (std::size_t page = 0; page < Notes::PAGES; page++) {
      if (!notes.is_used[page]) continue;
      for (std::size_t at = page * Notes::OF_A_PAGE; at < (page + 1) * Notes::OF_A_PAGE; at++)
        if (notes.at[at].number) visit(from + at * 16, notes.at[at]);
    }
  }

  std::atomic<Branch*> branches[MOST];
};

OF_ALL_UNITS NoteTree chunks;

// Threads take numbers by the hundred: within one they tell the order exactly, between two about.
struct Numbers {
  std::uint64_t last, end;

  std::uint64_t next() {
    if (last == end) take_more();
    return ++last;
  }

private:
  void take_more();
};

// What a thread used last: its numbers, and the notes of 4 MB of addresses, which begin there.
struct LastUsed {
  Numbers numbers;
  Word begin;  // by the upper bits of the address; 0 where there are no notes yet
  Notes* notes;

  ALWAYS_INLINE Notes* find(Word address) const {
    if (begin != address >> Notes::BITS) return nullptr;
    if (!notes) __builtin_unreachable();
    return notes;
  }
};
extern RECORDER_THREAD LastUsed last_used;

// Of those about which something is known, every so many are looked at once more.
constexpr std::uint64_t SAMPLES_APART = 256;

// (written as one word, as long as so many numbers aren't used up)
ALWAYS_INLINE void note_chunk_in(Notes& notes, Word chunk, TraceNumber trace, std::uint64_t number, bool is_sample) {
  std::size_t place = Notes::place_of(chunk);
  notes.is_used[place / Notes::OF_A_PAGE] = true;
  std::uint64_t word = number | std::uint64_t(trace) << Note::BITS_OF_NUMBER | std::uint64_t(is_sample) << 63;
  __builtin_memcpy(&notes.at[place], &word, sizeof word);
}

// Returns false where no memory is left.
inline bool note_chunk(Word chunk, TraceNumber trace, bool is_sample) {
  Notes* notes = chunks.find(chunk);
  if (!notes && !(notes = chunks.make(chunk))) return false;
  note_chunk_in(*notes, chunk, trace, last_used.numbers.next(), is_sample);
  last_used.begin = chunk >> Notes::BITS;
  last_used.notes = notes;
  return true;
}

// The same where the thread has all that it takes; else false.
ALWAYS_INLINE bool note_chunk_at_once(Word chunk, TraceNumber trace) {
  Notes* notes = last_used.find(chunk);
  if (!notes || last_used.numbers.last == last_used.numbers.end) return false;
  note_chunk_in(*notes, chunk, trace, ++last_used.numbers.last, false);
  return true;
}

inline Note forget_chunk(Word chunk) {
  Notes* notes = chunks.find(chunk);
  if (!notes) return {};
  Note& note = notes->at[Notes::place_of(chunk)], before = note;
  note = {};
  before.is_sample |= before.number && before.number % SAMPLES_APART == 0;
  return before;
}

// The same of one that is neither a sample nor aligned, where the thread has its notes; else false.
ALWAYS_INLINE bool forget_chunk_at_once(Word chunk) {
  Notes* notes = last_used.find(chunk);
  if (!notes) return false;
  std::uint64_t word;
  auto place = &notes->at[Notes::place_of(chunk)];
  __builtin_memcpy(&word, place, sizeof word);
  if (word >> 62 || word % SAMPLES_APART == 0) return false;
  *place = {};
  return true;
}

// Alignments that were asked for; 0 where none was.
void note_alignment(Word chunk, std::size_t alignment);
void forget_alignment(Word chunk);
std::size_t alignment_of(Word chunk, const Note& note);

// Round a fork.
void lock_chunks();
void unlock_chunks();

}  // namespace recorder
