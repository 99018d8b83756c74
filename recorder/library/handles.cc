// Handles: what the hooks told of, as far as memory has it, and each word that holds the address of a control
// block.
#include "hook_tables.h"
#include "snapshot.h"

namespace recorder {

// Whether it lies in the room of an object that has ended, whose block weak pointers keep.
bool Snapshot::is_dead(Word at) const {
  int chunk = chunk_of(at);
  if (chunk < 0 || !chunks[chunk].has_blocks) return false;
  if (auto next = block_index.first_after(at)) {
    auto& block = blocks[next->second];
    if (block.chunk == chunk && block.kind == ControlBlock::ARRAY) return !block.is_live();
  }
  auto before = block_index.last_up_to(at);
  if (!before) return false;
  auto& block = blocks[before->second];
  return block.chunk == chunk && block.kind == ControlBlock::IN_PLACE && !block.is_live();
}

// Whether a word is the address of a block; an atomic pointer's lock is the lowest bit.
bool Snapshot::is_block(Word word) const {
  word &= ~Word(1);
  return word % WORD == 0 && block_index.at(word) >= 0;
}

// `before` is the word before it, in which a handle has the pointer to its object.
void Snapshot::add_candidate(Word at, Word before, Word word) {
  if (!is_block(word) || (before && !is_pointer(before)) || is_dead(at)) return;
  if (hooked && !handle_at.emplace(at, true).second) return;
  handles.push_back({Handle::EITHER, at, block_index.at(word & ~Word(1)), before});
}

void Snapshot::find_handles() {
  std::vector<int> owners(blocks.size()), weaks(blocks.size());
  holdings.each([&](Word at, const Holding& it) {
    int block = block_index.at(it.block);
    bool is_there = chunk_of(at) >= 0 || area_of(at) >= 0;
    auto words = reinterpret_cast<const Word*>(at);
    if (block < 0 || !is_there || (*words & ~Word(1)) != it.block) {
      lost_handles++;
      return;
    }
    handles.push_back({it.is_weak ? Handle::WEAK : Handle::OWNER, at, block, words[-1]});
    handle_at.emplace(at, true);
    (it.is_weak ? weaks : owners)[block]++;
  });
  bool all_met = hooked;
  for (std::size_t number = 0; number < blocks.size(); number++) {
    auto& block = blocks[number];
    all_met &= owners[number] == block.uses && weaks[number] == block.weaks - (block.uses > 0);
  }
  if (all_met) return;
  for (auto& it : chunks) {
    Word before = 0;
    each_word(it.from, it.to, [&](Word at, Word word) {
      if (word) add_candidate(at, before, word);
      before = word;
    });
  }
  for (auto& it : areas) {
    Word before = 0;
    each_word(it, [&](Word at, Word word) {
      if (word) add_candidate(at, before, word);
      before = word;
    });
  }
}

}  // namespace recorder
