// What lies in memory at one moment: chunks, control blocks, handles, and who holds each chunk.
#pragma once
#include <map>
#include <string>
#include <vector>

#include "block_index.h"
#include "chunk_index.h"
#include "chunks.h"
#include "kernel_data.h"
#include "modules.h"
#include "object_types.h"
#include "outside.h"
#include "threads.h"

namespace recorder {

// Whoever may hold something: an object by its block's number, or an area.
struct Holder {
  enum Kind { NOBODY, OBJECT, AREA } kind = NOBODY;
  int number = -1;

  bool operator==(const Holder& other) const { return kind == other.kind && number == other.number; }
  bool operator!=(const Holder& other) const { return !(*this == other); }
  bool operator<(const Holder& other) const {
    return kind != other.kind ? kind < other.kind : number < other.number;
  }
};

// Memory that is there without malloc.
struct Area {
  enum Kind { STATIC, THREAD_LOCAL, STACK, MAPPED, KERNEL } kind;
  int number;  // its module or thread
  Word from, to;
  std::vector<Word> copy;  // its words, where it may change
  bool is_of_malloc =
      false;  // where it keeps free chunks: their heads lie in the last word of the chunk before
  bool is_of_system = false;  // of a library that C++ itself needs
};

struct LiveChunk {
  Word from, to;
  Word filled;  // the end of what a vector has filled, or `to`
  std::uint64_t number;
  const Trace* trace;
  std::size_t alignment;
  Holder holder;
  Word origin = 0;  // where in the holder the pointers begin that lead here
  Word pointer = 0;  // the last of them
  int before = -1;  // the chunk that this lies in; -1 where it lies in the holder itself
  int memory = -1;  // the first chunk of what goes with it, where it isn't certain whose that is
  bool is_contained = false;  // a container has it, which is certain
  bool is_vector = false;     // that is a vector, or what has three pointers like one
  enum Hashed { NEITHER, BUCKETS, NODE } hashed = NEITHER;  // of a hashed container
  bool has_blocks = false;
  bool is_pool = false;  // control blocks lie in the midst of it
  int epoll = -1;        // the number of the epoll whose data this is a copy of
};

struct ControlBlock {
  enum Kind { IN_PLACE, PLAIN, DELETER, ARRAY } kind = PLAIN;
  Word at;
  int chunk;
  Word object = 0, object_end = 0;
  const char* type = nullptr;     // of the control block; null without RTTI
  const char* told = nullptr;     // what a hook told of the object's type
  const char* dynamic = nullptr;  // of the object, where it has virtual functions
  int uses, weaks;
  std::uint64_t number;
  const Trace* trace = nullptr;
  bool is_hooked = false;

  bool is_live() const { return uses > 0; }
};

// What says of which type a chunk is. `v`: its own table of virtual functions, or its first member's; `c`, `f`, `a`: a
// function that knows, the first of a coroutine's frame, the invoker of a std::function, the manager of an any; `d` where it
// is what its holder's own pointer points to, `w` where that is so and it has a table, `-` where nothing says it.
struct Maker {
  char kind = '-';
  Word word = 0;  // the function, or the type's name

  bool is_type() const { return kind == 'v' || kind == 'w'; }
  bool tells_of_bytes() const { return is_type() || kind == 'c' || kind == 'f'; }
};

struct Handle {
  enum Kind { OWNER, WEAK, EITHER } kind;
  Word at;  // of its word that points to the block
  int block;
  Word points;  // what its other word points to
};

// A word, not a handle's, that points from one holder's memory into another's.
struct RawPointer {
  Word at;
  int to;
  Word word;
};

// A pointer to memory of which it isn't certain whose it is; or the number of an epoll, which owns nothing.
struct Link {
  Word at;
  int from;  // the memory of the same kind in which it lies; -1 where it lies elsewhere
  int to;
  bool is_number = false;
  bool is_sole = false;  // it alone in all of memory leads there, to the beginning, and was there before
};

// By the name of a control block's type.
ControlBlock::Kind kind_of(const char* type);

// A pointer without what a program may keep in its upper sixteen bits.
inline Word without_tag(Word word) { return word & ((Word(1) << 48) - 1); }

class Snapshot {
public:
  Snapshot(const Modules& modules, const Outside& outside, const KernelData& kernel,
           const std::vector<LivingStack>& stacks);

  int chunk_of(Word address) const;   // -1 where none has it
  int object_of(Word address) const;  // a block's number; -1 where no object has the address
  int area_of(Word address) const;
  int pointed_chunk(Word word) const;  // by a pointer that may have marks, or be past the end
  bool is_pointer(Word word) const { return chunk_of(word) >= 0 || modules.has(word); }
  Holder holder_of(Word address) const;
  Maker maker_of(int chunk) const;

  std::vector<Area> areas;
  std::vector<LiveChunk> chunks;     // in the order of their addresses
  std::vector<ControlBlock> blocks;  // in the order of their making
  std::vector<Handle> handles;
  std::vector<RawPointer> raw_pointers;
  std::vector<Link> links;
  std::size_t untyped_blocks = 0;
  std::vector<std::size_t> closed_blocks;  // of each library that was closed
  std::map<std::pair<Area::Kind, const char*>, std::size_t> unseen_blocks;  // where objects aren't looked at, by type
  std::size_t mapped_bytes = 0;  // of memory that the program mapped itself, where it wasn't looked at
  std::size_t unread_threads = 0;  // whose registers may hold what nothing else does
  std::size_t lost_handles = 0;  // that hooks told of, and that aren't there any more

  const Modules& modules;

private:
  friend class Spreading;

  mutable VirtualTables tables;
  ObjectTypes object_types{tables};

  void find_blocks_in_areas();
  void make_pool(int area);
  void add_kernel_data(const KernelData& kernel);
  void add_outside(const Outside& outside, const std::vector<LivingStack>& stacks);
  bool add_mapped(const Range& range);
  void count_closed();
  void find_blocks();
  void find_untyped(const std::map<Word, int>& counted);
  void add_block(Word at, int chunk, const VirtualTable& table);
  void find_handles();
  void add_candidate(Word at, Word before, Word word);
  bool is_dead(Word at) const;
  bool is_block(Word word) const;
  bool points_back(const LiveChunk& chunk, Word at) const;
  void find_objects();
  void place_object(ControlBlock& block, const std::vector<Word>& stored);
  void take_dynamic_type(ControlBlock& block);
  void find_holders();
  void find_raw_pointers();

  ChunkIndex chunk_index;
  BlockIndex block_index;
  std::vector<std::pair<Word, int>> objects;  // by address
  std::map<Word, Area::Kind> outside_blocks;  // control blocks that aren't in memory of malloc
  std::map<Word, bool> handle_at;             // (only where hooks tell of handles)
};

// Calls visit(address, word) for each whole word.
template <typename Visit>
void each_word(Word from, Word to, Visit visit) {
  for (Word at = (from + WORD - 1) & ~(WORD - 1); at + WORD <= to; at += WORD)
    visit(at, *reinterpret_cast<const Word*>(at));
}

template <typename Visit>
void each_word(const Area& area, Visit visit) {
  if (area.copy.empty()) return each_word(area.from, area.to, visit);
  Word at = area.from;
  for (Word word : area.copy) visit(at, word), at += WORD;
}

}  // namespace recorder
