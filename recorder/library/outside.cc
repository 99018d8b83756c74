#include "outside.h"

#include <dlfcn.h>

#include <algorithm>
#include <cstring>
#include <iterator>

#include "mappings.h"
#include "own_memory.h"
#include "threads.h"

namespace recorder {
namespace {

// Whether it is memory, and no file or device.
bool is_memory(const Mapping& mapping) {
  static const char* const BEGINNINGS[] = {"[anon", "/dev/zero", "/memfd:", "/dev/shm/", "/SYSV"};
  auto begins = [&](auto beginning) { return !std::strncmp(mapping.name, beginning, std::strlen(beginning)); };
  return (!mapping.inode && !*mapping.name) || std::any_of(std::begin(BEGINNINGS), std::end(BEGINNINGS), begins);
}

// Memory that may be written and isn't a file's.
std::vector<Range> writable() {
  std::vector<Range> found;
  Mappings mappings;
  for (Mapping mapping; mappings.next(mapping);)
    if (mapping.is_writable && is_memory(mapping)) found.push_back({mapping.from, mapping.to, mapping.is_shared});
  return found;
}

constexpr Word ROOM = Word(64) << 20;

// How much of the room for a thread's malloc that begins here, at a multiple of ROOM, may be written; 0 where there is
// none. Its first word is the address of its arena, which follows the beginning of such room; the third says how much of
// it is used, and the fourth how much ever was.
Word room_of_malloc(Word from) {
  constexpr Word HEAD = 256;
  auto words = reinterpret_cast<const Word*>(from);
  auto is_size = [](Word bytes) { return bytes && bytes % PAGE == 0 && bytes <= ROOM; };
  bool is_room = words[0] % ROOM && words[0] % ROOM < HEAD && words[0] % (2 * WORD) == 0 && is_size(words[2]);
  return !is_room ? 0 : is_size(words[3]) ? std::max(words[2], words[3]) : words[2];
}

// (the kernel joins it with what lies below and above)
void take_out_rooms_of_malloc(std::vector<Range>& ranges) {
  std::vector<Range> rooms;
  for (auto& range : ranges)
    for (Word at = (range.from + ROOM - 1) & ~(ROOM - 1); !range.is_shared && at + PAGE <= range.to; at += ROOM)
      if (Word used = room_of_malloc(at)) rooms.push_back({at, at + used, false});
  for (auto& room : rooms) take_out(ranges, room.from, room.to);
}

// What the loader mapped lies amid what may be the program's: it is apart, as it is full of numbers that look like a
// file's.
constexpr int MOST_OF_LOADER = 64;
Range of_loader[MOST_OF_LOADER];
int count_of_loader = 0;

void tell_apart_loader(std::vector<Range>& ranges) {
  for (int place = 0; place < count_of_loader; place++) {
    auto parts = parts_within(ranges, of_loader[place].from, of_loader[place].to);
    take_out(ranges, of_loader[place].from, of_loader[place].to);
    for (auto& part : parts) part.is_of_loader = true, ranges.push_back(part);
  }
}

// What the program took by sbrk lies amid the room of malloc.
Range broken[256];
std::atomic<std::size_t> broken_count{0};

}  // namespace

void know_loader() {
  Mappings mappings;
  for (Mapping mapping; mappings.next(mapping) && count_of_loader < MOST_OF_LOADER;)
    if (mapping.is_writable && !mapping.inode && !*mapping.name) of_loader[count_of_loader++] = {mapping.from, mapping.to, false};
}

Outside::Outside(const Modules& modules) {
  std::vector<Range> all = writable();
  for (auto& segment : modules.segments) take_out(all, segment.from, segment.to);
  take_out(all, modules.own_from, modules.own_to);
  take_out(all, modules.thread_from, modules.thread_to);
  auto take_out_stack = [](Word from, Word to, void* ranges) {
    take_out(*static_cast<std::vector<Range>*>(ranges), from, to);
  };
  each_known_stack(take_out_stack, &all);
  for (std::size_t place = 0; place < own_ranges(); place++)
    take_out(all, own_range(place).first, own_range(place).second);
  take_out_rooms_of_malloc(all);
  tell_apart_loader(all);
  for (auto& range : all) add_used(range, mapped);
  for (std::size_t place = 0; place < std::min<std::size_t>(broken_count, std::size(broken)); place++)
    mapped.push_back(broken[place]);
  std::sort(mapped.begin(), mapped.end(), [](auto& a, auto& b) { return a.from < b.from; });
}

}  // namespace recorder

using namespace recorder;

// (malloc asks the C library's own function, so that this is the program's doing)
extern "C" __attribute__((visibility("default"))) void* sbrk(std::intptr_t bytes) {
  static auto next = reinterpret_cast<void* (*)(std::intptr_t)>(dlsym(RTLD_NEXT, "sbrk"));
  void* before = next(bytes);
  Word from = reinterpret_cast<Word>(before);
  if (bytes <= 0 || !(from + 1)) return before;
  std::size_t place = broken_count++;
  if (place < std::size(broken)) broken[place] = {from, from + static_cast<Word>(bytes), false};
  return before;
}
