// Writes on until somebody ends it, as SIGPIPE does.
#include <unistd.h>

int main() {
  for (int count = 0; count < 1'000'000; count++)
    if (write(1, "y\n", 2) < 0) return 9;
}
