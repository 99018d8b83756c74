// What the kernel keeps for the program, and gives to whom it tells of something.
#pragma once
#include <vector>

#include "base.h"

namespace recorder {

struct Epoll {
  int number;
  std::vector<Word> data;      // of each file that it watches
  std::vector<int> watched;    // their numbers
};

struct KernelData {
  KernelData();  // no thread may stand still yet

  // An epoll in which a thread waits is got at by that, and so is each that it watches.
  void wait_in(const std::vector<int>& numbers);

  std::vector<Word> kept;      // what the kernel may give at any time: the values of timers, the data of epolls
  std::vector<Epoll> epolls;   // those that only who knows their number gets at
};

}  // namespace recorder
