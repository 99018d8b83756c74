// Where the numbers stand of epolls in which nobody waits: who has one gets at the data.
#include <map>
#include <set>
#include <tuple>

#include "spreading.h"

namespace recorder {

bool Spreading::may_have_numbers(const Region& region) const {
  if (region.chunk >= 0) return all.chunks[region.chunk].epoll < 0;
  if (region.holder.kind != Holder::AREA) return true;
  auto& area = all.areas[region.holder.number];
  return area.kind != Area::KERNEL && !area.is_of_system;
}

// Whether the program may have put a number there: what is constant once it is loaded, and the variables that C++ itself
// has in each thread, are full of others.
bool Spreading::may_be_number(const Region& region, Word at) const {
  if (region.chunk >= 0 || region.holder.kind != Holder::AREA) return true;
  auto& area = all.areas[region.holder.number];
  auto& modules = all.modules;
  if (area.kind == Area::THREAD_LOCAL) return at >= modules.program_thread_from && at < modules.program_thread_to;
  if (area.kind != Area::STATIC) return true;
  auto& module = modules.modules[area.number];
  return at < module.constant_from || at >= module.constant_to;
}

void Spreading::find_numbers_of_epolls() {
  std::map<int, int> chunk_of;  // by the number
  for (std::size_t chunk = 0; chunk < all.chunks.size(); chunk++)
    if (all.chunks[chunk].epoll >= 0) chunk_of[all.chunks[chunk].epoll] = static_cast<int>(chunk);
  if (chunk_of.empty()) return;
  int greatest = chunk_of.rbegin()->first;
  std::set<std::tuple<Holder, int, int>> seen;
  each_region([&](const Region& region) {
    if (!may_have_numbers(region)) return;
    int from = region.chunk < 0 ? -1 : all.chunks[region.chunk].memory;
    each_region_word(region, [&](Word at, Word word) {
      for (int half = 0; half < 2; half++, word >>= 32) {
        auto number = static_cast<int>(word);
        if (number <= 0 || number > greatest) continue;
        auto found = chunk_of.find(number);
        if (found == chunk_of.end() || !may_be_number(region, at)) continue;
        bool is_new = seen.insert({from < 0 ? region.holder : Holder{}, from, found->second}).second;
        if (is_new) all.links.push_back({at + static_cast<Word>(4 * half), from, found->second, true});
      }
    });
  });
}

}  // namespace recorder
