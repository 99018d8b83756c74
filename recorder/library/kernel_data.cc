#include "kernel_data.h"

#include <dirent.h>
#include <fcntl.h>
#include <sys/syscall.h>
#include <unistd.h>

#include <algorithm>
#include <cstdio>
#include <cstdlib>
#include <cstring>
#include <string>

namespace recorder {
namespace {

// All of a file, without stdio, whose locks another thread may hold.
std::string contents(const char* path) {
  std::string text;
  int file = open(path, O_RDONLY | O_CLOEXEC);
  char part[4096];
  for (ssize_t size = 0; file >= 0 && (size = read(file, part, sizeof part)) > 0;) text.append(part, size);
  if (file >= 0) close(file);
  return text;
}

template <typename Visit>
void each_line(const std::string& text, Visit visit) {
  for (std::size_t at = 0, end = 0; (end = text.find('\n', at)) != text.npos; at = end + 1)
    visit(text.substr(at, end - at).c_str());
}

bool is_epoll(const char* number) {
  char path[300], to[64];
  std::snprintf(path, sizeof path, "/proc/self/fd/%s", number);
  ssize_t size = readlink(path, to, sizeof to - 1);
  return size > 0 && (to[size] = 0, std::strstr(to, "[eventpoll]"));
}

// Each watch is a line with the number of the file and the data, in hexadecimal digits.
Epoll epoll_of(const char* number) {
  Epoll epoll{std::atoi(number), {}, {}};
  char path[300];
  std::snprintf(path, sizeof path, "/proc/self/fdinfo/%s", number);
  each_line(contents(path), [&](const char* line) {
    const char *file = std::strstr(line, "tfd:"), *data = std::strstr(line, "data:");
    if (!file || !data) return;
    epoll.watched.push_back(std::atoi(file + 4));
    epoll.data.push_back(std::strtoul(data + 5, nullptr, 16));
  });
  return epoll;
}

void find_epolls(std::vector<Epoll>& to) {
  int folder = open("/proc/self/fd", O_RDONLY | O_DIRECTORY | O_CLOEXEC);
  alignas(dirent64) char entries[4096];
  for (long size = 0; folder >= 0 && (size = syscall(SYS_getdents64, folder, entries, sizeof entries)) > 0;)
    for (long at = 0; at < size; at += reinterpret_cast<dirent64*>(entries + at)->d_reclen) {
      const char* number = reinterpret_cast<dirent64*>(entries + at)->d_name;
      if (is_epoll(number)) to.push_back(epoll_of(number));
    }
  if (folder >= 0) close(folder);
}

// The value that a timer gives to whom it tells. (The recorder's own has none.)
void find_timers(std::vector<Word>& to) {
  each_line(contents("/proc/self/timers"), [&](const char* line) {
    const char* value = std::strncmp(line, "signal:", 7) ? nullptr : std::strchr(line, '/');
    Word word = value ? std::strtoul(value + 1, nullptr, 16) : 0;
    if (word) to.push_back(word);
  });
}

}  // namespace

KernelData::KernelData() {
  find_epolls(epolls);
  find_timers(kept);
}

void KernelData::wait_in(const std::vector<int>& numbers) {
  for (int number : numbers) {
    auto epoll = std::find_if(epolls.begin(), epolls.end(), [number](auto& it) { return it.number == number; });
    if (epoll == epolls.end()) continue;
    Epoll found = *epoll;
    epolls.erase(epoll);
    kept.insert(kept.end(), found.data.begin(), found.data.end());
    wait_in(found.watched);
  }
}

}  // namespace recorder
