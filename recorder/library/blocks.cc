// Control blocks and their objects.
#include <algorithm>
#include <cstring>

#include "closed.h"
#include "control_blocks.h"
#include "hook_tables.h"
#include "snapshot.h"

namespace recorder {
namespace {

bool contains(const char* text, const char* part) { return text && std::strstr(text, part); }

// The two counts behind the pointer to the virtual functions, where they may be counts.
bool has_counts(Word at, int& uses, int& weaks) {
  uses = reinterpret_cast<const int*>(at)[2];
  weaks = reinterpret_cast<const int*>(at)[3];
  return uses >= 0 && weaks >= 1 && uses < 1 << 28 && weaks < 1 << 28;
}

// Whether the allocator in the name of a control block is std::allocator, which takes no room: `SaIvE` or
// `SaIS1_E` or alike before the last argument.
bool has_plain_allocator(const char* type) {
  std::string name = type ? type : "";
  auto end = name.rfind("ELN9__gnu_cxx12_Lock_policyE");
  auto begin = name.rfind("SaI", end);
  return end != name.npos && begin != name.npos && end - begin <= 8;
}

}  // namespace

ControlBlock::Kind kind_of(const char* type) {
  if (contains(type, "sp_ms_deleterI")) return ControlBlock::IN_PLACE;  // (of Boost's make_shared)
  if (contains(type, "sp_counted_impl_pd")) return ControlBlock::DELETER;
  if (contains(type, "_Sp_counted_ptr_inplaceI")) return ControlBlock::IN_PLACE;
  if (contains(type, "_Sp_counted_deleterI")) return ControlBlock::DELETER;
  if (contains(type, "_Sp_counted_arrayI")) return ControlBlock::ARRAY;
  return ControlBlock::PLAIN;
}

void Snapshot::add_block(Word at, int chunk, const VirtualTable& table) {
  ControlBlock block;
  block.at = at;
  block.chunk = chunk;
  block.type = table.is_control_block ? table.type : nullptr;
  block.kind = kind_of(block.type);
  has_counts(at, block.uses, block.weaks);
  block.number = chunks[chunk].number;
  block.trace = chunks[chunk].trace;
  if (Birth* birth = births.of(at).find(at)) {
    block.is_hooked = true;
    block.number = birth->number;
    block.trace = trace_of(birth->trace);
    block.object = birth->object;
    block.object_end = birth->size ? birth->object + birth->size : 0;
    block.told = birth->type;
    if (!block.type && block.object > at && block.object < chunks[chunk].to)
      block.kind = ControlBlock::IN_PLACE;
  }
  blocks.push_back(block);
}

// Control blocks whose virtual functions lay in a library that was closed, and whose types aren't known.
void Snapshot::count_closed() {
  closed_blocks.resize(closed_libraries());
  for (auto& it : chunks) {
    if (closed_blocks.empty() || it.to - it.from < 3 * WORD) continue;
    Word word = *reinterpret_cast<const Word*>(it.from);
    std::size_t place = closed_place(word);
    int uses = 0, weaks = 0;
    if (place < closed_blocks.size() && !tables.of(word).type && has_counts(it.from, uses, weaks) && uses)
      closed_blocks[place]++;
  }
}

void Snapshot::find_blocks() {
  std::map<Word, int> untyped;  // with the sum of their counts
  for (std::size_t chunk = 0; chunk < chunks.size(); chunk++)
    each_word(chunks[chunk].from, chunks[chunk].to - WORD, [&](Word at, Word word) {
      const VirtualTable& table = tables.of(word);
      int uses = 0, weaks = 0;
      if (!table.is_control_block && !table.is_untyped) return;
      if (chunks[chunk].holder.kind == Holder::AREA && !outside_blocks.count(at)) return;
      if (!has_counts(at, uses, weaks)) return;
      bool is_hooked = births.of(at).find(at) != nullptr;
      if (table.is_control_block || is_hooked)
        add_block(at, static_cast<int>(chunk), table);
      else if (uses)
        untyped[at] = uses + weaks;
    });
  std::sort(blocks.begin(), blocks.end(),
            [](auto& a, auto& b) { return a.number != b.number ? a.number < b.number : a.at < b.at; });
  std::vector<BlockIndex::Entry> entries;
  entries.reserve(blocks.size());
  for (std::size_t number = 0; number < blocks.size(); number++) {
    auto& chunk = chunks[blocks[number].chunk];
    bool is_alone =
        !chunk.has_blocks && (blocks[number].at == chunk.from || blocks[number].kind == ControlBlock::ARRAY);
    chunk.is_pool |= !is_alone;
    chunk.has_blocks = true;
    entries.push_back({blocks[number].at, static_cast<int>(number)});
  }
  for (auto& it : blocks)
    if (chunks[it.chunk].is_pool && !it.is_hooked) it.trace = nullptr;  // which tells of the pool's making
  block_index.fill(std::move(entries));
  if (!untyped.empty()) find_untyped(untyped);
}

// Of those that may be blocks without a type: how many have a handle, and no more than their counts say.
void Snapshot::find_untyped(const std::map<Word, int>& counted) {
  std::map<Word, int> found;
  Word before = 0;
  auto visit = [&](Word, Word word) {
    auto it = counted.find(word & ~Word(1));
    if (it != counted.end() && before && is_pointer(before)) found[it->first]++;
    before = word;
  };
  for (auto& it : chunks) before = 0, each_word(it.from, it.to, visit);
  for (auto& it : areas) before = 0, each_word(it, visit);
  for (auto& it : found) untyped_blocks += it.second <= counted.at(it.first);
}

void Snapshot::find_objects() {
  std::vector<std::vector<Word>> stored(blocks.size());
  for (auto& it : handles) stored[it.block].push_back(it.points);
  for (std::size_t number = 0; number < blocks.size(); number++) {
    auto& block = blocks[number];
    place_object(block, stored[number]);
    if (block.is_live() && block.object_end > block.object)
      objects.push_back({block.object, static_cast<int>(number)});
  }
  std::sort(objects.begin(), objects.end());
}

namespace {

// The pointer in a block with a deleter that also its handles have, else the first to the beginning of a chunk.
Word owned_by(const ControlBlock& block, const Snapshot& all, const std::vector<Word>& stored) {
  if (contains(block.type, "_Sp_counted_deleterIDn")) return 0;  // made of nullptr: a deleter alone
  Word found = 0;
  each_word(block.at + 2 * WORD, all.chunks[block.chunk].to, [&](Word, Word word) {
    int chunk = all.chunk_of(word);
    if (chunk < 0 || chunk == block.chunk) return;
    bool is_stored = std::find(stored.begin(), stored.end(), word) != stored.end();
    if (is_stored || (!found && all.chunks[chunk].from == word)) found = word;
  });
  return found;
}

// Where the object begins that has a base at an address, by its table of virtual functions.
Word beginning(Word base, VirtualTables& tables) {
  auto& table = tables.of(*reinterpret_cast<const Word*>(base));
  return table.type && table.to_top < 0 && table.to_top > -(1 << 16) ? base + table.to_top : base;
}

// Of Boost's the object lies in a deleter, after a pointer and a mark, as far as its alignment takes it.
Word in_place_of_boost(const ControlBlock& block, VirtualTables& tables, const std::vector<Word>& stored) {
  Word mark = block.at + 3 * WORD, found = 0;
  for (Word pointer : stored)
    if (pointer > mark && pointer < mark + 64 && (!found || pointer < found)) found = pointer;
  return found && found % WORD == 0 ? std::max(mark + WORD, beginning(found, tables)) : found ? found : mark + WORD;
}

Word in_place(const ControlBlock& block, const Snapshot& all, VirtualTables& tables, const std::vector<Word>& stored) {
  if (block.type && is_boost_block_type(block.type)) return in_place_of_boost(block, tables, stored);
  auto& chunk = all.chunks[block.chunk];
  Word first = block.at + std::max<Word>(2 * WORD, chunk.is_pool ? 0 : chunk.alignment);
  auto& table = tables.of(*reinterpret_cast<const Word*>(first));
  if (has_plain_allocator(block.type) || (table.type && !table.to_top)) return first;
  Word found = 0;  // an allocator with a state lies before the object
  for (Word it : stored)
    if (it >= first && it < first + 64 && it % WORD == 0 && (!found || it < found)) found = it;
  return found ? std::max(first, beginning(found, tables)) : first;
}

}  // namespace

// What `make_shared` made is of the type that it was asked for; what was made otherwise may be of a class derived from that.
void Snapshot::take_dynamic_type(ControlBlock& block) {
  if (block.kind == ControlBlock::IN_PLACE || block.kind == ControlBlock::ARRAY || block.object % WORD) return;
  auto& table = tables.of(*reinterpret_cast<const Word*>(block.object));
  if (!table.type || (block.type && !object_types.has(block.type, table))) return;
  block.dynamic = table.type;
  Word top = block.object + table.to_top;
  if (chunk_of(top) == chunk_of(block.object)) block.object = top;
}

void Snapshot::place_object(ControlBlock& block, const std::vector<Word>& stored) {
  auto words = reinterpret_cast<const Word*>(block.at);
  if (block.kind == ControlBlock::ARRAY) {
    block.object = words[4];
    block.object_end = block.at;
  } else if (!block.object) {
    if (block.kind == ControlBlock::PLAIN) block.object = words[2];
    if (block.kind == ControlBlock::DELETER) block.object = owned_by(block, *this, stored);
    if (block.kind == ControlBlock::IN_PLACE) block.object = in_place(block, *this, tables, stored);
  }
  int chunk = chunk_of(block.object);
  if (chunk < 0 || !block.is_live()) {
    block.object_end = block.object;
    return;
  }
  bool is_part = block.object - chunks[chunk].from > std::max<Word>(2 * WORD, chunks[chunk].alignment);
  if (block.kind == ControlBlock::DELETER && is_part) {  // (an array may have its length before it)
    block.object_end = block.object;
    return;
  }
  take_dynamic_type(block);
  if (block.object_end <= block.object) block.object_end = chunks[chunk].to;
  auto next = block_index.first_after(block.object);
  if (next) block.object_end = std::min(block.object_end, next->first);
}

}  // namespace recorder
