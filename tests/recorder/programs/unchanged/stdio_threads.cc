// Ends by _exit while threads hold the locks of stdio.
#include <unistd.h>

#include <cstdio>
#include <initializer_list>
#include <memory>
#include <thread>

struct Node {
  std::shared_ptr<Node> next;
};

static void flush() {
  for (;;) std::fflush(nullptr);
}

static void open_and_close() {
  for (;;)
    if (std::FILE* file = std::fopen("/dev/null", "w")) std::fclose(file);
}

int main() {
  for (auto work : {flush, flush, open_and_close, open_and_close}) std::thread(work).detach();
  auto kept = std::make_shared<Node>();
  usleep(20'000);
  write(1, "working\n", 8);
  _exit(7);
}
