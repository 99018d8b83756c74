#include "closed.h"

#include <dlfcn.h>
#include <link.h>

#include <algorithm>
#include <cstdio>
#include <cstring>
#include <iterator>
#include <mutex>

#include "table.h"

namespace recorder {
namespace {

ClosedLibrary closed[64];
std::atomic<std::size_t> closed_count{0};
Table<ClosedTable> closed_tables;
Lock closing;

struct Part {
  Word from, to;
  bool is_writable;
};

// A library that is loaded, and the parts of it that can be read.
struct Loaded {
  ClosedLibrary library{};
  Part parts[16];
  int count = 0;

  // The end of the part that has an address; 0 where none has it.
  Word end_of(Word address) const {
    auto part = std::find_if(parts, parts + count,
                             [&](const Part& it) { return address - it.from < it.to - it.from; });
    return part == parts + count ? 0 : part->to;
  }
};

// A library that is loaded, by its name: where it lies, or nowhere.
int add_parts(dl_phdr_info* info, std::size_t, void* to) {
  auto& loaded = *static_cast<Loaded*>(to);
  auto& library = loaded.library;
  if (std::strncmp(info->dlpi_name, library.path, sizeof library.path - 1) != 0) return 0;
  library.base = info->dlpi_addr;
  library.from = ~Word(0);
  for (int at = 0; at < info->dlpi_phnum; at++) {
    auto& part = info->dlpi_phdr[at];
    if (part.p_type != PT_LOAD) continue;
    Word from = info->dlpi_addr + part.p_vaddr;
    library.from = std::min(library.from, from);
    library.to = std::max(library.to, from + part.p_memsz);
    if (part.p_flags & PF_R && loaded.count < static_cast<int>(std::size(loaded.parts)))
      loaded.parts[loaded.count++] = {from, from + part.p_memsz, !!(part.p_flags & PF_W)};
  }
  return 1;
}

// The mangled name of a type_info in the library, and its length; null where there is none.
const char* name_at(const Loaded& loaded, Word type, std::size_t& length) {
  if (type % WORD || loaded.end_of(type) < type + 2 * WORD) return nullptr;
  Word begin = reinterpret_cast<const Word*>(type)[1], end = loaded.end_of(begin);
  auto name = reinterpret_cast<const char*>(begin);
  if (begin < end && *name == '*') name++;
  length = 0;
  while (reinterpret_cast<Word>(name) + length < end && name[length] > ' ' && name[length] <= '~') length++;
  return length && reinterpret_cast<Word>(name) + length < end && !name[length] ? name : nullptr;
}

void note_table(Word at, const char* name, std::size_t length, Word to_top) {
  ClosedTable* before = closed_tables.find(at);
  if (before && !std::strcmp(before->type, name)) return;
  auto type = static_cast<char*>(own_room(length + 1));
  if (!type) return;
  std::memcpy(type, name, length);  // (empty room follows)
  closed_tables.put(at, {type, static_cast<std::ptrdiff_t>(to_top)});
}

// Before a table's functions lie the type and the way to the object's beginning.
void note_tables(const Loaded& loaded) {
  for (const Part* part = loaded.parts; part < loaded.parts + loaded.count; part++) {
    if (!part->is_writable) continue;
    Word from = (part->from + WORD - 1) & ~(WORD - 1);
    for (Word at = from + 2 * WORD; at + WORD <= part->to; at += WORD) {
      std::size_t length = 0;
      auto words = reinterpret_cast<const Word*>(at);
      if (const char* name = name_at(loaded, words[-1], length)) note_table(at, name, length, words[-2]);
    }
  }
}

bool meet(const ClosedLibrary& a, const ClosedLibrary& b) { return a.from < b.to && b.from < a.to; }

bool is_same(const ClosedLibrary& a, const ClosedLibrary& b) {
  return a.from == b.from && a.to == b.to && !std::strcmp(a.path, b.path);
}

}  // namespace

ClosedLibrary library_of(void* handle) {
  Inside inside;
  Loaded found;
  link_map* map = nullptr;
  if (!handle || dlinfo(handle, RTLD_DI_LINKMAP, &map) || !map || !*map->l_name) return found.library;
  std::snprintf(found.library.path, sizeof found.library.path, "%s", map->l_name);
  dl_iterate_phdr(add_parts, &found);
  std::lock_guard<Lock> guard(closing);
  note_tables(found);
  return found.library;
}

void note_closed(const ClosedLibrary& library) {
  Inside inside;
  Loaded still;
  std::memcpy(still.library.path, library.path, sizeof library.path);
  dl_iterate_phdr(add_parts, &still);
  std::lock_guard<Lock> guard(closing);
  auto end = closed + closed_count;
  bool is_known = std::any_of(closed, end, [&](auto& it) { return is_same(it, library); });
  if (still.library.to || is_known || end == std::end(closed)) return;
  *end = library;
  closed_count++;
}

void lock_closed() { closing.lock(); }
void unlock_closed() { closing.unlock(); }

const ClosedLibrary& closed_library(std::size_t place) { return closed[place]; }
std::size_t closed_libraries() { return closed_count; }

bool lay_alone(std::size_t place) {
  auto end = closed + closed_count;
  return std::count_if(closed, end, [&](auto& it) { return meet(it, closed[place]); }) == 1;
}

std::size_t closed_place(Word word) {
  auto lay_there = [&](const ClosedLibrary& it) { return word - it.from < it.to - it.from; };
  return std::find_if(closed, closed + closed_count, lay_there) - closed;
}

const ClosedTable* closed_table(Word word) {
  std::size_t place = closed_place(word);
  return place < closed_count && lay_alone(place) ? closed_tables.find(word) : nullptr;
}

}  // namespace recorder
