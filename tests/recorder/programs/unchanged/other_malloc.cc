// Uses whatever malloc there is, each function of it.
#include <malloc.h>
#include <stdlib.h>

#include <cstdio>
#include <cstring>
#include <memory>
#include <string>

struct Node {
  std::shared_ptr<Node> next;
  std::string name = "a name that is too long to lie within";
};

int main() {
  auto node = std::make_shared<Node>();
  node->next = std::make_shared<Node>();
  auto text = static_cast<char*>(std::malloc(10));
  std::strcpy(text, "text");
  text = static_cast<char*>(std::realloc(text, 1000));
  bool has_room = malloc_usable_size(text) >= 1000;
  std::printf("%s %d %s\n", text, has_room, node->next->name.c_str());
  std::free(text);
  std::free(std::calloc(10, 10));
  std::fflush(stdout);
  return 5;
}
