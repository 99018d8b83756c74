// Gives up its folders and its rights: `moved_away FOLDER`.
#include <unistd.h>

#include <cstdio>
#include <memory>
#include <thread>

struct Node {
  std::shared_ptr<Node> next;
};

int main(int, char** words) {
  auto node = std::make_shared<Node>();
  node->next = node;
  node.reset();
  std::thread([] { pause(); }).detach();
  std::thread([] {
    for (volatile long count = 0;; count = count + 1) {
    }
  }).detach();
  usleep(10'000);
  if (chdir(words[1]) || chroot(words[1]) || chdir("/")) return 1;
  if (setgid(65534) || setuid(65534)) return 1;
  closefrom(3);
  std::printf("moved away\n");
  std::fflush(stdout);
  _exit(5);
}
