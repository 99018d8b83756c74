// Says its number, and waits for a signal that ends it.
#include <unistd.h>

#include <cstdio>

int main() {
  std::printf("%d\n", getpid());
  std::fflush(stdout);
  for (;;) pause();
}
