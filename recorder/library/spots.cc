#include "spots.h"

#include <algorithm>

namespace recorder {

Spots::Spots(const Snapshot& all) : all(all), makers(all.chunks.size()), is_asked(all.chunks.size()) {
  std::map<std::tuple<int, bool, Word, const char*, const char*, const char*, const Trace*>, int> known;
  for (std::size_t block = 0; block < all.blocks.size(); block++) {
    auto& it = all.blocks[block];
    Word size = it.object_end - it.object;
    bool is_pool = all.chunks[it.chunk].is_pool;
    auto made = known.emplace(std::tuple(it.kind, is_pool, size, it.type, it.dynamic, it.told, it.trace), makings.size());
    if (made.second) makings.push_back(static_cast<int>(block));
    making_by_block.push_back(made.first->second);
  }
}

namespace {

Spot::Kind kind_of(const Area& area) {
  static constexpr Spot::Kind KINDS[] = {Spot::STATIC, Spot::THREAD_LOCAL, Spot::STACK, Spot::MAPPED, Spot::KERNEL};
  return KINDS[area.kind];
}

}  // namespace

const Maker& Spots::maker_of(int chunk) {
  if (!is_asked[chunk]) makers[chunk] = all.maker_of(chunk);
  is_asked[chunk] = true;
  return makers[chunk];
}

Row Spots::row_of(Word at, bool is_of_handle) {
  int chunk = all.object_of(at) < 0 ? all.chunk_of(at) : -1;
  Word inner = chunk < 0 ? 0 : at - all.chunks[chunk].from;
  Word origin = chunk >= 0 && all.chunks[chunk].origin ? all.chunks[chunk].origin : at;
  Holder holder = all.holder_of(at);
  Spot spot;
  spot.is_of_handle = is_of_handle;
  Row row;
  if (holder.kind == Holder::OBJECT) {
    auto& block = all.blocks[holder.number];
    bool is_in_object = origin >= block.object && origin < block.object_end;
    row.object = holder.number;
    spot.kind = is_in_object ? Spot::OBJECT : Spot::DELETER;
    spot.number = making_by_block[holder.number];
    spot.offset = static_cast<std::ptrdiff_t>(origin - (is_in_object ? block.object : block.at));
  } else if (holder.kind == Holder::AREA) {
    auto& area = all.areas[holder.number];
    spot.kind = kind_of(area);
    spot.number = area.number;
    Word begin = area.kind == Area::STATIC ? all.modules.modules[area.number].base : area.from;
    spot.offset = static_cast<std::ptrdiff_t>(origin - begin);
  }
  if (chunk >= 0) {
    auto& it = all.chunks[chunk];
    row.memory = it.memory;
    if (it.epoll >= 0) spot.kind = Spot::EPOLL;
    spot.is_uncertain = it.memory >= 0;
    spot.maker = maker_of(chunk);
    if (origin != at || spot.is_uncertain) spot.inner = static_cast<std::ptrdiff_t>(inner);
    if (it.is_vector && !spot.maker.tells_of_bytes()) row.byte = spot.inner, spot.inner = 0;
  }
  auto known = number_of.emplace(spot, spots.size());
  if (known.second) spots.push_back(spot);
  row.spot = known.first->second;
  return row;
}

void Spots::sort(std::vector<std::pair<int, Row>>& rows) const {
  auto key = [&](const Row& it) {
    auto& spot = spots[it.spot];
    return std::tuple(spot.kind, it.object >= 0 ? it.object : spot.number, spot.offset, spot.inner + it.byte, it.memory);
  };
  std::stable_sort(rows.begin(), rows.end(), [&](auto& a, auto& b) { return key(a.second) < key(b.second); });
}

}  // namespace recorder
