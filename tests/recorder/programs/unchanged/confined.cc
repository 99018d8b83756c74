// Confines itself by seccomp, so that whatever the recorder would do at the end is the program's end.
#include <err.h>
#include <linux/filter.h>
#include <linux/seccomp.h>
#include <signal.h>
#include <stddef.h>
#include <sys/prctl.h>
#include <sys/syscall.h>
#include <sys/wait.h>
#include <unistd.h>

#include <cstdlib>
#include <memory>
#include <string>
#include <thread>
#include <vector>

struct Node {
  std::shared_ptr<Node> next;
};

// Allows what a quiet program needs for its end, and no more.
static sock_filter program[] = {
    BPF_STMT(BPF_LD | BPF_W | BPF_ABS, offsetof(seccomp_data, nr)),
    BPF_JUMP(BPF_JMP | BPF_JEQ | BPF_K, SYS_write, 4, 0),
    BPF_JUMP(BPF_JMP | BPF_JEQ | BPF_K, SYS_brk, 3, 0),
    BPF_JUMP(BPF_JMP | BPF_JEQ | BPF_K, SYS_exit, 2, 0),
    BPF_JUMP(BPF_JMP | BPF_JEQ | BPF_K, SYS_exit_group, 1, 0),
    BPF_STMT(BPF_RET | BPF_K, SECCOMP_RET_KILL_PROCESS),
    BPF_STMT(BPF_RET | BPF_K, SECCOMP_RET_ALLOW),
};

// Kills for what nothing here calls natively, and only a recorder might.
#define KILLED_FOR(call, left) BPF_JUMP(BPF_JMP | BPF_JEQ | BPF_K, call, left, 0)
static sock_filter against_others[] = {
    BPF_STMT(BPF_LD | BPF_W | BPF_ABS, offsetof(seccomp_data, nr)),
    KILLED_FOR(SYS_getpid, 8),
    KILLED_FOR(SYS_gettid, 7),
    KILLED_FOR(SYS_process_vm_readv, 6),
    KILLED_FOR(SYS_sched_getaffinity, 5),
    KILLED_FOR(SYS_timer_create, 4),
    KILLED_FOR(SYS_socket, 3),
    KILLED_FOR(SYS_fcntl, 2),
    KILLED_FOR(SYS_readlink, 1),
    BPF_STMT(BPF_RET | BPF_K, SECCOMP_RET_ALLOW),
    BPF_STMT(BPF_RET | BPF_K, SECCOMP_RET_KILL_PROCESS),
};

template <int NUMBER>
__attribute__((noinline)) std::shared_ptr<Node> made_at_a_new_place() {
  return std::make_shared<Node>();
}

void make_at_new_places() {
  std::vector<std::shared_ptr<Node>> made;
  for (int count = 0; count < 100; count++) {
    made.push_back(made_at_a_new_place<0>());
    made.push_back(made_at_a_new_place<1>());
    made.push_back(made_at_a_new_place<2>());
  }
}

// Confines this thread, or all, and goes on in one of these ways.
int go_on(const std::string& how, char** words, sock_fprog& filter) {
  make_at_new_places();
  pid_t process = getpid();
  if (prctl(PR_SET_SECCOMP, SECCOMP_MODE_FILTER, &filter)) return 2;
  write(1, "confined\n", 9);
  make_at_new_places();
  if (how == "exit") std::exit(5);
  if (how == "quick_exit") std::quick_exit(5);
  if (how == "_exit") _exit(5);
  if (how == "err") close(2), errx(5, "no more");
  if (how == "term") kill(process, SIGTERM);
  if (how == "close") close_range(40, 50, 0), closefrom(60);
  if (how == "thread") std::thread(make_at_new_places).join();
  if (how == "exec") execl("/proc/self/exe", words[0], "again", nullptr);
  if (how == "fork") {
    int status = 0;
    pid_t child = fork();
    if (!child) make_at_new_places(), std::exit(6);
    return waitpid(child, &status, 0) == child ? WEXITSTATUS(status) : 1;
  }
  return 5;
}

int main(int, char** words) {
  std::string how = words[1];
  if (how == "again") return make_at_new_places(), 7;
  std::vector<std::shared_ptr<Node>> made;
  sock_fprog filter{sizeof program / sizeof *program, program};
  sock_fprog other{sizeof against_others / sizeof *against_others, against_others};
  if (prctl(PR_SET_NO_NEW_PRIVS, 1, 0, 0, 0)) return 1;
  if (how != "strict" && how != "filter" && how != "call") return go_on(how, words, other);
  bool failed = how == "strict"   ? prctl(PR_SET_SECCOMP, SECCOMP_MODE_STRICT)
                : how == "filter" ? prctl(PR_SET_SECCOMP, SECCOMP_MODE_FILTER, &filter)
                                  : syscall(SYS_seccomp, SECCOMP_SET_MODE_FILTER, 0, &filter);
  if (failed) return 2;
  if (how != "strict")
    for (int count = 0; count < 100; count++) made.push_back(std::make_shared<Node>());
  write(1, "confined\n", 9);
  if (how == "strict") syscall(SYS_exit, 5);
  return 5;
}
