// How memory is spread over its holders.
#pragma once
#include <vector>

#include "snapshot.h"

namespace recorder {

// Memory of one holder, from which pointers lead on.
struct Region {
  Word from, to;
  Holder holder;
  int chunk;  // -1 for an object itself and an area
};

// Spreads from areas and objects over the chunks that nobody holds yet, nearest first: by what only a container has
// (a vector's three pointers, or a node that points back), by pointers to the beginning of a chunk, by any. What a
// static leads to is the static's, before an object's container that only seems to have it.
class Spreading {
public:
  explicit Spreading(Snapshot& all) : all(all) { add_first(); }

  void run() {
    spread(CONTAINERS, STATICS);
    spread(BEGINNINGS, STATICS);
    spread(CONTAINERS, OBJECTS);
    spread(BEGINNINGS, COPIES);
    spread(BEGINNINGS, OBJECTS);
    spread(ANY, STATICS);
    spread(ANY, COPIES);
    spread(ANY, OBJECTS);
  }

  // Each region of memory: areas, objects, the chunks that lead on from these, and those to which nothing leads.
  template <typename Visit>
  void each_region(Visit visit) const {
    for (auto& region : found)
      if (region.chunk < 0) visit(region);
    for (std::size_t chunk = 0; chunk < all.chunks.size(); chunk++) {
      auto& it = all.chunks[chunk];
      if (it.origin || it.holder.kind == Holder::NOBODY)
        visit(Region{it.from, it.to, it.holder, static_cast<int>(chunk)});
    }
  }

  void find_links();
  void find_numbers_of_epolls();

  // Visits the words of a region that are no part of a handle: neither the address of a control block nor the
  // word before.
  template <typename Visit>
  void each_plain_word(const Region& region, Visit visit) const {
    Word before_at = 0, before = 0;
    bool is_of_malloc =
        region.chunk < 0 && region.holder.kind == Holder::AREA && all.areas[region.holder.number].is_of_malloc;
    auto look = [&](Word at, Word word) {
      if (is_of_malloc && all.chunk_of(word) != all.chunk_of(word + WORD)) word = 0;  // a free chunk's head
      bool is_block = all.is_block(word);
      if (before && !is_block) visit(before_at, before);
      before_at = at;
      before = is_block ? 0 : word;
    };
    each_region_word(region, look);
    if (before) visit(before_at, before);
  }

private:
  bool may_have_numbers(const Region& region) const;
  bool may_be_number(const Region& region, Word at) const;
  template <typename Visit>
  void each_region_word(const Region& region, Visit visit) const {
    if (region.holder.kind == Holder::AREA && region.chunk < 0)
      return each_word(all.areas[region.holder.number], visit);
    bool is_pool = region.chunk >= 0 && all.chunks[region.chunk].is_pool;
    each_word(region.from, region.chunk < 0 ? region.to : all.chunks[region.chunk].filled,
              [&](Word at, Word word) {
                if (!is_pool || all.object_of(at) < 0) visit(at, word);
              });
  }

  enum Round { CONTAINERS, BEGINNINGS, ANY };
  enum From { STATICS, COPIES, OBJECTS };  // (what is copied may be old bytes)

  void add_first();
  From kind_of(const Region& region) const {
    if (region.holder.kind == Holder::OBJECT) return OBJECTS;
    auto& area = all.areas[region.holder.number];
    return area.copy.empty() && area.kind != Area::MAPPED ? STATICS : COPIES;
  }
  void spread(Round round, From from);
  void spread_from(std::size_t place, Round round);
  bool leads(Round round, const Region& region, Word at, Word word, LiveChunk& chunk) const;
  LiveChunk::Hashed hashed(const Region& region, Word at, const LiveChunk& chunk) const;
  void claim(Round round, const Region& region, Word at, int chunk);
  int memory_of(int chunk, bool is_apart) const;
  struct FoundLink {
    Region region;
    Word at;
    int chunk;
  };
  std::vector<FoundLink> found_links() const;
  void divide(const std::vector<FoundLink>& pointers);
  int uncertain_memory(const Handle& it) const;
  bool is_older(Word at, int to) const;
  std::vector<bool> useful_memory(const std::vector<Link>& links) const;

  Snapshot& all;
  std::vector<Region> found;
  std::vector<bool> is_done;  // regions from which no pointer leads to what nobody holds
};

}  // namespace recorder
