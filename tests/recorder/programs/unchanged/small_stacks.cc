// Threads with the least stacks that there are; one of them ends the program.
#include <limits.h>
#include <pthread.h>
#include <stdlib.h>
#include <unistd.h>

#include <atomic>
#include <cstdio>
#include <memory>
#include <string>

struct Node {
  std::shared_ptr<Node> next;
  std::string name = "a name that is too long to lie within";
};

static std::atomic<long> made{0};
static const char* how;

static void* make(void* last) {
  for (int count = 0; count < 1000; count++) {
    auto node = std::make_shared<Node>();
    node->next = std::make_shared<Node>();
    made += node->name.size() == 37;
  }
  if (last && *how == 'e') exit(5);
  if (last) _exit(5);
  return nullptr;
}

int main(int, char** words) {
  how = words[1];
  for (size_t size : {PTHREAD_STACK_MIN + 0ul, 20480ul, 32768ul, 65536ul}) {
    pthread_attr_t attributes;
    pthread_attr_init(&attributes);
    pthread_attr_setstacksize(&attributes, size);
    pthread_t threads[4];
    for (auto& it : threads) pthread_create(&it, &attributes, make, nullptr);
    for (auto& it : threads) pthread_join(it, nullptr);
    std::printf("%zu: %ld\n", size, made.load());
    std::fflush(stdout);
  }
  pthread_attr_t attributes;
  pthread_attr_init(&attributes);
  pthread_attr_setstacksize(&attributes, PTHREAD_STACK_MIN);
  pthread_t thread;
  pthread_create(&thread, &attributes, make, &thread);
  pause();
}
