// Who holds each chunk: whoever's memory leads to it by pointers.
#include <algorithm>
#include <set>

#include "containers.h"
#include "spreading.h"

namespace recorder {

void Spreading::add_first() {
  for (std::size_t number = 0; number < all.areas.size(); number++) {
    auto& area = all.areas[number];
    found.push_back({area.from, area.to, {Holder::AREA, static_cast<int>(number)}, -1});
  }
  for (std::size_t number = 0; number < all.blocks.size(); number++) {
    auto& block = all.blocks[number];
    Holder holder{Holder::OBJECT, static_cast<int>(number)};
    auto& own = all.chunks[block.chunk];
    if (!own.is_pool) own.holder = holder;
    if (!block.is_live()) continue;
    if (block.kind == ControlBlock::DELETER)  // whose state lies in the block
      found.push_back({block.at + 2 * WORD, own.is_pool ? block.at + 8 * WORD : own.to, holder, -1});
    if (block.object_end <= block.object) continue;
    found.push_back({block.object, block.object_end, holder, -1});
    auto& chunk = all.chunks[all.chunk_of(block.object)];
    if (!chunk.is_pool) chunk.holder = holder;
  }
  for (std::size_t number = 0; number < all.chunks.size(); number++) {
    auto& it = all.chunks[number];
    if (it.holder.kind == Holder::AREA) found.push_back({it.from, it.to, it.holder, static_cast<int>(number)});
  }
}

void Spreading::spread(Round round, From from) {
  for (std::size_t place = 0; place < found.size(); place++) {
    is_done.resize(found.size());
    if (!is_done[place] && kind_of(found[place]) == from) spread_from(place, round);
  }
}

void Spreading::spread_from(std::size_t place, Round round) {
  Region region = found[place];
  bool is_left = false;
  each_plain_word(region, [&](Word where, Word word) {
    int chunk = all.pointed_chunk(word);
    if (chunk < 0 || all.chunks[chunk].holder.kind != Holder::NOBODY) return;
    auto& it = all.chunks[chunk];
    bool is_seen = round == ANY || (word >= it.from && word < it.to);
    bool is_contained = is_seen && leads(CONTAINERS, region, where, word, it);
    if (is_contained || (is_seen && leads(round, region, where, word, it)))
      claim(is_contained ? CONTAINERS : round, region, where, chunk);
    else
      is_left = true;
  });
  is_done[place] = !is_left;
}

// Whether a hashed container leads from `at`: from its head to its buckets or its first node, or on from these.
LiveChunk::Hashed Spreading::hashed(const Region& region, Word at, const LiveChunk& chunk) const {
  if (region.chunk >= 0) {
    auto& from = all.chunks[region.chunk];
    if (from.hashed == LiveChunk::BUCKETS || (from.hashed == LiveChunk::NODE && at == from.from)) return LiveChunk::NODE;
  }
  auto words = reinterpret_cast<const Word*>(at);
  if (table_of(at, region.to) == chunk.from && words[1] * WORD <= chunk.to - chunk.from) return LiveChunk::BUCKETS;
  if (at < region.from + 2 * WORD) return LiveChunk::NEITHER;
  auto table = reinterpret_cast<const Word*>(table_of(at - 2 * WORD, region.to));
  if (!table || words[0] != chunk.from) return LiveChunk::NEITHER;
  Word count = words[-1];
  int buckets = all.chunk_of(reinterpret_cast<Word>(table));
  bool is_there = count == 1 || (buckets >= 0 && count * WORD <= all.chunks[buckets].to - all.chunks[buckets].from);
  return is_there && std::find(table, table + count, at) != table + count ? LiveChunk::NODE : LiveChunk::NEITHER;
}

bool Spreading::leads(Round round, const Region& region, Word at, Word word, LiveChunk& chunk) const {
  if (round == ANY) return true;
  if (word != chunk.from) return false;
  if (round == BEGINNINGS) return true;
  bool is_copied =
      region.holder.kind == Holder::AREA && region.chunk < 0 && !all.areas[region.holder.number].copy.empty();
  if (is_copied) return false;
  auto words = reinterpret_cast<const Word*>(at);
  if (at + 4 * WORD <= region.to && is_deque(words, all)) return true;
  if (at + 3 * WORD <= region.to)
    if (Word filled = filled_by_vector(words, chunk)) return chunk.filled = filled, chunk.is_vector = true;
  if (all.points_back(chunk, at)) return true;
  chunk.hashed = hashed(region, at, chunk);
  return chunk.hashed != LiveChunk::NEITHER;
}

void Spreading::claim(Round round, const Region& region, Word at, int chunk) {
  auto& it = all.chunks[chunk];
  it.holder = region.holder;
  it.origin = region.chunk < 0 ? at : all.chunks[region.chunk].origin;
  it.before = region.chunk;
  it.pointer = at;
  it.is_contained = round == CONTAINERS;
  if (region.holder.kind == Holder::OBJECT) it.memory = memory_of(chunk, false);
  found.push_back({it.from, it.to, region.holder, chunk});
}

// What a chunk is a part of, where it isn't certain whose that is: it itself where it `is_apart`.
int Spreading::memory_of(int chunk, bool is_apart) const {
  auto& it = all.chunks[chunk];
  int before = it.before < 0 ? -1 : all.chunks[it.before].memory;
  return !it.is_contained && (is_apart || before < 0) ? chunk : before;
}

Maker Snapshot::maker_of(int chunk) const {
  auto& it = chunks[chunk];
  auto words = reinterpret_cast<const Word*>(it.from);
  auto is_code = [&](Word word) {
    const Segment* segment = modules.segment_of(word);
    return segment && segment->is_code;
  };
  bool is_copied = area_of(it.pointer) >= 0 && !areas[area_of(it.pointer)].copy.empty();
  auto pointer = reinterpret_cast<const Word*>(it.pointer);
  bool is_pointed = pointer && !is_copied && pointer[0] == it.from;
  if (it.to - it.from >= 2 * WORD) {
    auto& table = tables.of(words[0]);
    bool is_table = table.type && !table.is_control_block && !table.to_top;
    if (is_table) return {is_pointed && it.before < 0 ? 'w' : 'v', reinterpret_cast<Word>(table.type)};
    if (is_code(words[0]) && is_code(words[1])) return {'c', words[0]};
  }
  if (!is_pointed) return {};
  if (is_code(pointer[2]) && is_code(pointer[3])) return {'f', pointer[3]};
  if (is_code(pointer[-1])) return {'a', pointer[-1]};
  return {it.before < 0 ? 'd' : '-'};
}

void Snapshot::find_holders() {
  Spreading spreading(*this);
  spreading.run();
  auto is_left_over = [&](const Handle& it) {
    int chunk = chunk_of(it.at);
    return chunk >= 0 && it.at >= chunks[chunk].filled;
  };
  handles.erase(std::remove_if(handles.begin(), handles.end(), is_left_over), handles.end());
  for (std::size_t chunk = 0; chunk < chunks.size(); chunk++)
    if (chunks[chunk].holder.kind == Holder::NOBODY) chunks[chunk].memory = static_cast<int>(chunk);
  spreading.find_links();
  spreading.find_numbers_of_epolls();
}

void Snapshot::find_raw_pointers() {
  std::set<std::pair<Holder, Word>> seen;
  Spreading spreading(*this);
  spreading.each_region([&](const Region& region) {
    spreading.each_plain_word(region, [&](Word at, Word word) {
      word = without_tag(word);
      if (chunk_of(word) < 0) return;
      Holder to = holder_of(word);
      if (to.kind != Holder::OBJECT || to == region.holder || !blocks[to.number].is_live()) return;
      auto& object = blocks[to.number];
      Word told =
          chunks[object.chunk].is_pool ? word : object.at;  // (where a pool's objects end isn't known here)
      if (seen.insert({region.holder, told}).second) raw_pointers.push_back({at, to.number, word});
    });
  });
}

}  // namespace recorder
