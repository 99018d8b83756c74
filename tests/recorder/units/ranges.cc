// take_out and add_used by themselves, with ends that are no page's. Each fault is a line.
#include "../../../recorder/library/ranges.h"

#include <sys/mman.h>

#include <cstdio>
#include <string>

using namespace recorder;

constexpr Word PAGE_BYTES = 4096, MEGABYTE = Word(1) << 20;

std::string text(const std::vector<Range>& ranges, Word base) {
  std::string said;
  for (auto& range : ranges) {
    said += said.empty() ? "" : " ";
    said += std::to_string(range.from - base) + "-" + std::to_string(range.to - base);
  }
  return said;
}

void want(const char* what, const std::vector<Range>& found, Word base, const std::string& wanted) {
  std::string said = text(found, base);
  if (said != wanted) std::printf("%s: %s, wanted is %s\n", what, said.c_str(), wanted.c_str());
}

// A mapping in which the pages from 100 to 102 are used, and page 900.
Word mapping() {
  void* memory = mmap(nullptr, 4 * MEGABYTE, PROT_READ | PROT_WRITE, MAP_PRIVATE | MAP_ANONYMOUS, -1, 0);
  madvise(memory, 4 * MEGABYTE, MADV_NOHUGEPAGE);
  Word base = reinterpret_cast<Word>(memory);
  for (Word page : {100, 101, 102, 900}) *reinterpret_cast<volatile Word*>(base + page * PAGE_BYTES) = 1;
  return base;
}

void test_taking_out() {
  auto without = [](Word from, Word to) {
    std::vector<Range> ranges{{0x1000, 0x3200, false}, {0x4000, 0x5000, false}};
    take_out(ranges, from, to);
    return ranges;
  };
  want("nothing", without(0x3200, 0x4000), 0, "4096-12800 16384-20480");
  want("odd ends within", without(0x1200, 0x1201), 0, "4096-4608 4609-12800 16384-20480");
  want("the end of one and the beginning of the next", without(0x31ff, 0x4001), 0, "4096-12799 16385-20480");
  want("all", without(0, 0x6000), 0, "");
}

void test_what_is_used(Word base) {
  auto used = [&](Word from, Word to) {
    std::vector<Range> found;
    add_used({base + from, base + to, false}, found);
    return found;
  };
  Word from = 100 * PAGE_BYTES, to = 103 * PAGE_BYTES, far = 900 * PAGE_BYTES;
  std::string near = std::to_string(from) + "-" + std::to_string(to);
  std::string both = near + " " + std::to_string(far) + "-" + std::to_string(far + PAGE_BYTES);
  want("whole pages", used(0, 4 * MEGABYTE), base, both);
  want("an odd beginning", used(512, 4 * MEGABYTE), base, both);
  want("an odd end", used(0, 4 * MEGABYTE - 512), base, both);
  want("odd ends", used(1024, 4 * MEGABYTE - 1), base, both);
  want("less than a page more than a megabyte", used(0, MEGABYTE + 8), base, near);
  want("ends amid what is used", used(from + 8, far + 16), base,
       std::to_string(from + 8) + "-" + std::to_string(to) + " " + std::to_string(far) + "-" + std::to_string(far + 16));
  want("what is small is taken whole", used(8, 16), base, "8-16");
}

int main() {
  test_taking_out();
  test_what_is_used(mapping());
}
