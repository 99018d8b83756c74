// The program's threads, standing still for a look at memory.
#pragma once
#include <vector>

#include "stacks.h"

namespace recorder {

void keep_threads_folder();  // before main, and in a process that is new

// While one lives, all other threads stand still: those in system calls where they are, the others in a
// signal's handler. Those that a signal doesn't reach go on.
class AllStandStill {
public:
  AllStandStill();
  ~AllStandStill();
  AllStandStill(const AllStandStill&) = delete;

  static void let_go();  // where its end isn't reached

  const std::vector<LivingStack>& stacks() const { return found; }
  std::size_t without_registers() const { return unread; }  // how many threads' registers are not on their stacks
  const std::vector<int>& epolls() const { return waited; }  // the numbers of those in which threads wait

private:
  void stop_others();
  void take_whole(pid_t thread);

  std::vector<LivingStack> found;
  std::vector<int> waited;
  std::size_t unread = 0;
};

}  // namespace recorder
