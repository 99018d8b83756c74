// Takes limits for itself, and ends as it wants to: `limits KIND BYTES [leak or fill]`.
#include <sys/resource.h>
#include <unistd.h>

#include <cstdio>
#include <cstdlib>
#include <fstream>
#include <map>
#include <memory>
#include <new>
#include <string>

struct Node {
  std::shared_ptr<Node> next;
};

int main(int count, char** words) {
  const std::map<std::string, __rlimit_resource> kinds{
      {"AS", RLIMIT_AS}, {"FSIZE", RLIMIT_FSIZE}, {"NOFILE", RLIMIT_NOFILE}, {"DATA", RLIMIT_DATA}};
  std::string kind = words[1];
  rlim_t most = std::strtoul(words[2], nullptr, 0);
  if (kind == "AS") {
    unsigned long pages = 0;
    std::ifstream("/proc/self/statm") >> pages;
    most += pages * sysconf(_SC_PAGESIZE);
  }
  rlimit limit{most, most};
  if (setrlimit(kinds.at(kind), &limit)) return 1;
  std::string how = count > 3 ? words[3] : "";
  if (how == "leak") {
    auto node = std::make_shared<Node>();
    node->next = node;
  }
  std::printf("limited\n");
  if (how == "fill") {
    struct Piece {
      Piece* next;
      char rest[4000];
    };
    Piece* all = nullptr;
    try {
      for (;;) all = new Piece{all, {}};
    } catch (const std::bad_alloc&) {
      std::printf("no memory is left\n");
    }
  }
  std::fflush(stdout);
  return 5;
}
