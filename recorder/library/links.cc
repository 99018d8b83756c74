// Links between memory of which it isn't certain whose it is.
#include <algorithm>
#include <map>
#include <tuple>

#include "spreading.h"

namespace recorder {

// Pointers to memory of which it isn't certain whose it is, as far as handles lie there or behind it.
void Spreading::find_links() {
  auto is_uncertain = [&](const Handle& it) { return uncertain_memory(it) >= 0; };
  if (std::none_of(all.handles.begin(), all.handles.end(), is_uncertain)) return;
  std::vector<FoundLink> pointers = found_links();
  divide(pointers);
  std::vector<Link> links;
  std::map<std::tuple<Holder, int, int>, std::size_t> seen;  // with the place of the link
  std::vector<int> count(all.chunks.size());  // of those from which pointers lead to each memory
  for (auto& [region, at, chunk] : pointers) {
    int to = all.chunks[chunk].memory, from = region.chunk < 0 ? -1 : all.chunks[region.chunk].memory;
    if (from == to) continue;
    auto added = seen.emplace(std::tuple(from < 0 ? region.holder : Holder{}, from, to), links.size());
    Link link{at, from, to, false, is_older(at, to)};
    if (added.second) {
      links.push_back(link);
      count[to] += region.chunk < 0 || all.chunks[region.chunk].epoll < 0;  // (an epoll owns nothing)
    } else if (link.is_sole && !links[added.first->second].is_sole) {
      links[added.first->second] = link;
    }
  }
  for (auto& link : links) link.is_sole &= count[link.to] == 1;
  auto is_useful = useful_memory(links);
  for (auto& it : links)
    if (is_useful[it.to]) all.links.push_back(it);
}

// Pointers to uncertain memory. (Which memory that is divides, and whether it is uncertain stays.)
std::vector<Spreading::FoundLink> Spreading::found_links() const {
  std::vector<FoundLink> links;
  each_region([&](const Region& region) {
    each_plain_word(region, [&](Word at, Word word) {
      int chunk = all.pointed_chunk(word);
      if (chunk >= 0 && all.chunks[chunk].memory >= 0 && chunk != region.chunk) links.push_back({region, at, chunk});
    });
  });
  return links;
}

// Whether a pointer to the beginning of memory lies in what was there before that.
bool Spreading::is_older(Word at, int to) const {
  auto& memory = all.chunks[to];
  int chunk = all.chunk_of(at);
  if (chunk < 0 || !all.chunks[chunk].number) return false;  // (pools and epolls have none)
  return *reinterpret_cast<const Word*>(at) == memory.from && all.chunks[chunk].number < memory.number;
}

// The uncertain memory that a handle lies in; -1 where it lies in none.
int Spreading::uncertain_memory(const Handle& it) const {
  int chunk = all.object_of(it.at) < 0 ? all.chunk_of(it.at) : -1;
  return chunk >= 0 ? all.chunks[chunk].memory : -1;
}

// Memory from which links lead to handles.
std::vector<bool> Spreading::useful_memory(const std::vector<Link>& links) const {
  std::vector<bool> is_useful(all.chunks.size());
  std::vector<int> todo;
  auto add = [&](int memory) {
    if (memory >= 0 && !is_useful[memory]) is_useful[memory] = true, todo.push_back(memory);
  };
  for (auto& it : all.handles) add(uncertain_memory(it));
  std::vector<std::vector<int>> before(all.chunks.size());
  for (auto& it : links)
    if (it.from >= 0) before[it.to].push_back(it.from);
  while (!todo.empty()) {
    int memory = todo.back();
    todo.pop_back();
    for (int it : before[memory]) add(it);
  }
  return is_useful;
}

// Divides the memory behind an uncertain pointer where another pointer leads into its midst.
void Spreading::divide(const std::vector<FoundLink>& pointers) {
  std::vector<bool> is_apart(all.chunks.size());
  for (auto& [region, _, chunk] : pointers) {
    int from = region.chunk < 0 ? -1 : all.chunks[region.chunk].memory;
    if (from != all.chunks[chunk].memory) is_apart[chunk] = true;
  }
  for (auto& region : found) {
    if (region.chunk < 0 || region.holder.kind != Holder::OBJECT) continue;
    all.chunks[region.chunk].memory = memory_of(region.chunk, is_apart[region.chunk]);
  }
}

}  // namespace recorder
