#include "snapshot.h"

#include <sys/uio.h>
#include <unistd.h>

#include <algorithm>

#include "next_malloc.h"

namespace recorder {
namespace {

// Words that may vanish while they are read, as far as they are there.
std::vector<Word> copied_by_kernel(Word from, Word to) {
  std::vector<Word> words((to - from) / WORD);
  iovec local{words.data(), words.size() * WORD}, remote{reinterpret_cast<void*>(from), local.iov_len};
  ssize_t got = process_vm_readv(getpid(), &local, 1, &remote, 1, 0);
  words.resize(got < 0 ? 0 : got / WORD);
  return words;
}

// A stack's words, also where the kernel may not be asked.
std::vector<Word> copied(Word from, Word to) {
  std::vector<Word> words = copied_by_kernel(from, to);
  if (words.empty()) words.assign(reinterpret_cast<Word*>(from), reinterpret_cast<Word*>(from) + (to - from) / WORD);
  return words;
}

}  // namespace

Snapshot::Snapshot(const Modules& modules, const Outside& outside, const KernelData& kernel,
                   const std::vector<LivingStack>& stacks)
    : modules(modules), tables(modules) {
  for (auto& segment : modules.segments) {
    if (!segment.is_writable) continue;
    auto& module = modules.modules[segment.module];
    Area area{Area::STATIC, segment.module, segment.from, segment.to, {}, module.is_libc()};
    area.is_of_system = module.is_of_system();
    areas.push_back(std::move(area));
  }
  if (modules.thread_from)
    areas.push_back({Area::THREAD_LOCAL, 0, modules.thread_from, modules.thread_to, {}, false});
  for (auto& it : stacks) {
    Word from = (it.from + WORD - 1) & ~(WORD - 1);
    if (from >= it.to) continue;
    auto words = copied(from, it.to);
    Word to = from + words.size() * WORD;
    areas.push_back({Area::STACK, it.thread, from, to, std::move(words), false});
  }
  recorder::chunks.each([&](Word from, const Note& it) {
    Word to = from + next_malloc.usable_size(reinterpret_cast<void*>(from));
    chunks.push_back({from, to, to, it.number, trace_of(it.trace), alignment_of(from, it), {}});
  });
  add_kernel_data(kernel);
  add_outside(outside, stacks);
  find_blocks_in_areas();
  for (auto& it : chunks) chunk_index.add(it.from, it.to);
  count_closed();
  find_blocks();
  if (blocks.empty()) return;
  find_handles();
  find_objects();
  find_holders();
  find_raw_pointers();
}

// Control blocks outside of malloc, to which a word points: an optimizer leaves their first words on stacks, too. What the
// program mapped itself becomes a pool where there are some; elsewhere they are counted.
void Snapshot::find_blocks_in_areas() {
  std::map<Word, std::pair<const char*, std::size_t>> found;  // type and area, by the address
  for (std::size_t number = 0; number < areas.size(); number++) {
    auto& area = areas[number];
    if (area.kind != Area::STATIC && area.kind != Area::MAPPED) continue;
    const char* type = nullptr;  // that the word before tells
    each_word(area, [&](Word at, Word word) {
      if (type && static_cast<int>(word) > 0 && word >> 32) found[at - WORD] = {type, number};
      type = nullptr;
      if (!modules.has(word)) return;
      auto& table = tables.of(word);
      if (table.is_control_block) type = table.type;
    });
  }
  if (found.empty()) return;
  auto look = [&](Word, Word word) {
    auto it = found.find(word & ~Word(1));
    if (it != found.end()) outside_blocks[it->first] = areas[it->second.second].kind;
  };
  for (auto& it : chunks) each_word(it.from, it.to, look);
  for (auto& it : areas) each_word(it, look);
  for (auto& [at, _] : outside_blocks) {
    auto& [type, number] = found[at];
    if (areas[number].kind == Area::MAPPED && areas[number].copy.empty())
      make_pool(static_cast<int>(number));
    else if (areas[number].to > areas[number].from)
      unseen_blocks[{areas[number].kind, type}]++;
  }
  std::sort(chunks.begin(), chunks.end(), [](auto& a, auto& b) { return a.from < b.from; });
}

// Makes a chunk of an area, whose words keep what they point to.
void Snapshot::make_pool(int number) {
  auto& area = areas[number];
  if (area.from == area.to) return;
  chunks.push_back({area.from, area.to, area.to, 0, nullptr, 0, {Holder::AREA, number}});
  chunks.back().origin = area.from;
  chunks.back().is_pool = true;
  area.to = area.from;
}

namespace {

// Ranges without what malloc mapped for a chunk, which may lie beside what the program mapped; and none where malloc has
// room for many chunks.
std::vector<Range> without_malloc(const std::vector<Range>& ranges, const std::vector<LiveChunk>& chunks) {
  std::vector<Range> left;
  for (auto& range : ranges) {
    std::vector<Range> parts{range};
    auto it = std::lower_bound(chunks.begin(), chunks.end(), range.from,
                               [](const LiveChunk& chunk, Word word) { return chunk.to <= word; });
    for (; it != chunks.end() && it->from < range.to && !parts.empty(); ++it) {
      bool is_mapped = reinterpret_cast<const Word*>(it->from)[-1] & 2;
      if (is_mapped) take_out(parts, page_of(it->from), it->to);
      else parts.clear();
    }
    left.insert(left.end(), parts.begin(), parts.end());
  }
  return left;
}

}  // namespace

// What the kernel may give at any time is an area, the data of an epoll in which nobody waits are a chunk.
void Snapshot::add_kernel_data(const KernelData& kernel) {
  if (!kernel.kept.empty())
    areas.push_back({Area::KERNEL, 0, WORD, WORD * (kernel.kept.size() + 1), kernel.kept, false});
  for (auto& epoll : kernel.epolls) {
    if (epoll.data.empty()) continue;
    Word from = reinterpret_cast<Word>(epoll.data.data()), to = from + epoll.data.size() * WORD;
    chunks.push_back({from, to, to, 0, nullptr, 0, {}});
    chunks.back().epoll = epoll.number;
  }
  std::sort(chunks.begin(), chunks.end(), [](auto& a, auto& b) { return a.from < b.from; });
}

// What the program mapped itself, where it isn't very large.
void Snapshot::add_outside(const Outside& outside, const std::vector<LivingStack>& stacks) {
  std::vector<Range> mapped = outside.mapped;
  for (auto& it : stacks) take_out(mapped, it.lowest, it.to);
  std::size_t left = std::size_t(256) << 20;
  for (auto& it : without_malloc(mapped, chunks)) {
    std::size_t bytes = it.to - it.from;
    if (bytes <= left && add_mapped(it))
      left -= bytes;
    else
      mapped_bytes += bytes;
  }
}

// Returns false where it can't be read.
bool Snapshot::add_mapped(const Range& range) {
  Area area{Area::MAPPED, 0, range.from, range.to, {}, false};
  area.is_of_system = range.is_of_loader;
  if (range.is_shared && (area.copy = copied_by_kernel(range.from, range.to)).empty()) return false;
  areas.push_back(std::move(area));
  return true;
}

int Snapshot::chunk_of(Word address) const {
  bool is_beyond = chunks.empty() || address < chunks.front().from || address >= chunks.back().to;
  return is_beyond ? -1 : chunk_index.chunk_of(address);
}

int Snapshot::pointed_chunk(Word word) const {
  Word address = without_tag(word);
  int chunk = chunk_of(address);
  return chunk >= 0 ? chunk : chunk_of(address - 1);
}

int Snapshot::object_of(Word address) const {
  auto after = std::upper_bound(objects.begin(), objects.end(), std::pair<Word, int>(address, 1 << 30));
  if (after == objects.begin()) return -1;
  int block = after[-1].second;
  return address < blocks[block].object_end ? block : -1;
}

int Snapshot::area_of(Word address) const {
  for (std::size_t place = 0; place < areas.size(); place++)
    if (address >= areas[place].from && address < areas[place].to) return static_cast<int>(place);
  return -1;
}

Holder Snapshot::holder_of(Word address) const {
  int object = object_of(address);
  if (object >= 0) return {Holder::OBJECT, object};
  int chunk = chunk_of(address);
  if (chunk >= 0) return chunks[chunk].holder;
  int area = area_of(address);
  return area >= 0 ? Holder{Holder::AREA, area} : Holder{};
}

}  // namespace recorder
