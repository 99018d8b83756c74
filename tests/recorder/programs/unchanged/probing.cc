// Asks what seccomp can do, and doesn't use it; ends by a bare system call.
#include <linux/seccomp.h>
#include <sys/prctl.h>
#include <sys/syscall.h>
#include <unistd.h>

#include <cerrno>
#include <cstdio>
#include <memory>

struct Node {
  std::shared_ptr<Node> next;
};

int main() {
  auto node = std::make_shared<Node>();
  node->next = node;
  node.reset();
  int told = prctl(PR_SET_SECCOMP, SECCOMP_MODE_FILTER, nullptr) ? errno : 0;
  int second = syscall(SYS_seccomp, SECCOMP_SET_MODE_STRICT, 1, nullptr) ? errno : 0;
  int third = syscall(SYS_seccomp, SECCOMP_SET_MODE_FILTER, 0, nullptr) ? errno : 0;
  std::printf("%d %d %d %ld\n", told == EFAULT || told == EACCES, second == EINVAL, third != 0,
              syscall(SYS_close, -1) + errno);
  std::fflush(stdout);
  syscall(SYS_exit_group, 5);
}
