// Starts another program: `starting PROGRAM`.
#include <sys/wait.h>
#include <unistd.h>

#include <cstdio>

int main(int, char** words) {
  if (!fork()) {
    execl(words[1], words[1], nullptr);
    _exit(1);
  }
  int status = 0;
  wait(&status);
  std::printf("ended %d by %d\n", WEXITSTATUS(status), WTERMSIG(status));
}
