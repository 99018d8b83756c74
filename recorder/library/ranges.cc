#include "ranges.h"

#include <fcntl.h>
#include <unistd.h>

#include <algorithm>
#include <iterator>

namespace recorder {

void take_out(std::vector<Range>& ranges, Word from, Word to) {
  std::vector<Range> left;
  auto keep_part = [&](Range part, Word begin, Word end) {
    part.from = begin;
    part.to = end;
    left.push_back(part);
  };
  for (auto& range : ranges) {
    bool is_apart = to <= range.from || from >= range.to;
    if (is_apart) left.push_back(range);
    if (!is_apart && range.from < from) keep_part(range, range.from, from);
    if (!is_apart && to < range.to) keep_part(range, to, range.to);
  }
  ranges = left;
}

std::vector<Range> parts_within(const std::vector<Range>& ranges, Word from, Word to) {
  std::vector<Range> parts;
  for (Range range : ranges) {
    range.from = std::max(range.from, from);
    range.to = std::min(range.to, to);
    if (range.from < range.to) parts.push_back(range);
  }
  return parts;
}

namespace {

// Whether each of these pages, at most 512 from an address on, is in memory or swapped. Returns how many are told; 0
// where they can't be.
std::size_t told_pages(int file, Word from, Word to, std::uint64_t (&is_used)[512]) {
  constexpr std::uint64_t IN_USE = std::uint64_t(3) << 62;
  std::size_t wanted = std::min<std::size_t>(std::size(is_used), (to - from) / PAGE);
  ssize_t got = pread(file, is_used, wanted * sizeof *is_used, static_cast<off_t>(from / PAGE * sizeof *is_used));
  std::size_t count = got < 0 ? 0 : static_cast<std::size_t>(got) / sizeof *is_used;
  for (std::size_t at = 0; at < count; at++) is_used[at] &= IN_USE;
  return count;
}

// Adds what is used; false where that can't be told. (Ends need not be those of pages, as what was taken out has others.)
bool add_told(int file, const Range& range, std::vector<Range>& to) {
  constexpr Word GAP = 64 * PAGE;
  const Word end = whole_pages(range.to);
  const std::size_t before = to.size();
  std::uint64_t is_used[512];
  for (Word at = page_of(range.from); at < end;) {
    std::size_t count = told_pages(file, at, end, is_used);
    if (!count) return to.resize(before), false;
    for (std::size_t page = 0; page < count; page++, at += PAGE) {
      if (!is_used[page]) continue;
      bool is_near = to.size() > before && at - to.back().to <= GAP;
      if (!is_near) to.push_back({std::max(at, range.from), 0, false, range.is_of_loader});
      to.back().to = std::min(at + PAGE, range.to);
    }
  }
  return true;
}

}  // namespace

void add_used(const Range& range, std::vector<Range>& to) {
  constexpr Word SMALL = Word(1) << 20, LARGE = Word(64) << 30;
  Word bytes = range.to - range.from;
  bool is_asked = bytes > SMALL && bytes <= LARGE && !range.is_shared;
  int file = is_asked ? open("/proc/self/pagemap", O_RDONLY | O_CLOEXEC) : -1;
  if (file < 0 || !add_told(file, range, to)) to.push_back(range);
  if (file >= 0) close(file);
}

}  // namespace recorder
