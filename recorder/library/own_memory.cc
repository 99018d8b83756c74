#include "own_memory.h"

#include <sys/mman.h>

#include <algorithm>
#include <atomic>
#include <iterator>
#include <mutex>

#include "reading.h"
#include "system_calls.h"

namespace recorder {
namespace {

Word next;

// What own_pages has given; one that was given back is empty.
struct Own {
  std::atomic<Word> from, to;
} own[1 << 16];
std::atomic<std::size_t> own_count{0};

constexpr std::size_t PIECE = 1 << 16;
Lock room_lock;
char* room = nullptr;
std::size_t room_left = 0;

}  // namespace

Word OwnRegion::from, OwnRegion::to;

// (the kernel may join a mapping with the next one, so that where its last page ends is to be known)
void* own_pages(std::size_t bytes) {
  SystemCalls calls;
  if (!calls.are_allowed()) return nullptr;
  bytes = whole_pages(bytes);
  void* pages =
      mmap(nullptr, bytes, PROT_READ | PROT_WRITE, MAP_PRIVATE | MAP_ANONYMOUS | MAP_NORESERVE, -1, 0);
  if (pages == MAP_FAILED) return nullptr;
  std::size_t place = own_count++;
  if (place < std::size(own)) {
    own[place].from = reinterpret_cast<Word>(pages);
    own[place].to = reinterpret_cast<Word>(pages) + bytes;
  }
  return pages;
}

void give_own_pages(void* pages, std::size_t bytes) {
  for (std::size_t place = std::min(own_count.load(), std::size(own)); place-- > 0;)
    if (own[place].from == reinterpret_cast<Word>(pages)) {
      own[place].from = own[place].to = 0;
      break;
    }
  SystemCalls calls;
  if (calls.are_allowed()) munmap(pages, whole_pages(bytes));
}

std::pair<Word, Word> own_range(std::size_t place) {
  if (place >= std::min(own_count.load(), std::size(own))) return {0, 0};
  return {own[place].from, own[place].to};
}

std::size_t own_ranges() { return std::min(own_count.load(), std::size(own)); }

void* own_room(std::size_t bytes) {
  std::lock_guard<Lock> guard(room_lock);
  bytes = (bytes + WORD - 1) & ~(WORD - 1);
  if (room_left < bytes) {
    room = static_cast<char*>(own_pages(PIECE));
    room_left = room ? PIECE : 0;
    if (!room) return nullptr;
  }
  room += bytes;
  room_left -= bytes;
  return room - bytes;
}

void lock_room() { room_lock.lock(); }
void unlock_room() { room_lock.unlock(); }

OwnRegion::OwnRegion() {
  std::size_t bytes = std::size_t(64) << 30;
  void* pages = own_pages(bytes);
  while (!pages && bytes > std::size_t(64) << 20) pages = own_pages(bytes /= 2);
  from = next = reinterpret_cast<Word>(pages);
  to = pages ? from + bytes : from;
  unusual_thread |= thread_state::IN_OWN_REGION;
}

OwnRegion::~OwnRegion() { give_back(); }

void OwnRegion::give_back() {
  unusual_thread &= ~thread_state::IN_OWN_REGION;
  if (from) give_own_pages(reinterpret_cast<void*>(from), to - from);
  from = to = 0;
}

// Before each piece lies a word with its size.
void* OwnRegion::take(std::size_t bytes, std::size_t alignment) {
  Word at = (next + WORD + alignment - 1) & ~(alignment - 1);
  if (at < next || at + bytes < at || at + bytes > to) give_up("no memory is left for reading it");
  next = at + bytes;
  reinterpret_cast<std::size_t*>(at)[-1] = bytes;
  return reinterpret_cast<void*>(at);
}

void OwnRegion::give(void* memory) {
  Word begin = whole_pages(reinterpret_cast<Word>(memory));
  Word end = page_of(reinterpret_cast<Word>(memory) + size_of(memory));
  if (end > begin + 16 * PAGE) madvise(reinterpret_cast<void*>(begin), end - begin, MADV_DONTNEED);
}

std::size_t OwnRegion::size_of(const void* memory) { return static_cast<const std::size_t*>(memory)[-1]; }

}  // namespace recorder
