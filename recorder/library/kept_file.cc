#include "kept_file.h"

#include <dlfcn.h>
#include <fcntl.h>
#include <sys/resource.h>
#include <sys/stat.h>
#include <unistd.h>

#include <algorithm>
#include <cerrno>
#include <climits>

namespace recorder {
namespace {

constexpr int MOST_KEPT = 2;
const KeptFile* all[MOST_KEPT];

void change(const KeptFile* from, const KeptFile* to) {
  auto place = std::find(all, all + MOST_KEPT, from);
  if (place != all + MOST_KEPT) *place = to;
}

int really_close(int file) {
  static auto next = reinterpret_cast<int (*)(int)>(dlsym(RTLD_NEXT, "close"));
  return next(file);
}

// A number near the limit, or the same where there is none.
int moved_up(int file) {
  rlimit limit;
  if (getrlimit(RLIMIT_NOFILE, &limit)) return file;
  int above = static_cast<int>(std::min<rlim_t>(limit.rlim_cur, 1024)) - 8;
  int moved = above > file ? fcntl(file, F_DUPFD_CLOEXEC, above) : -1;
  if (moved < 0) return file;
  really_close(file);
  return moved;
}

}  // namespace

void KeptFile::keep(int other) {
  close();
  if (other < 0) return;
  struct stat found;
  file = moved_up(other);
  change(nullptr, this);
  if (fstat(file, &found)) return close();
  device = found.st_dev;
  inode = found.st_ino;
}

void KeptFile::close() {
  int open = number();
  change(this, nullptr);
  if (open >= 0) really_close(open);
  file = -1;
}

bool KeptFile::is_kept(int number) {
  return std::any_of(all, all + MOST_KEPT,
                     [&](auto it) { return it && it->file == number && it->number() == number; });
}

void KeptFile::forget_all() { std::fill(all, all + MOST_KEPT, nullptr); }

int KeptFile::number() const {
  struct stat found;
  bool is_there = file >= 0 && !fstat(file, &found) && found.st_dev == device && found.st_ino == inode;
  return is_there ? file : -1;
}

}  // namespace recorder

using namespace recorder;

#define PUBLIC extern "C" __attribute__((visibility("default")))

// (to the program these aren't open)
PUBLIC int close(int file) { return KeptFile::is_kept(file) ? errno = EBADF, -1 : really_close(file); }

PUBLIC int close_range(unsigned from, unsigned to, int flags) {
  static auto next = reinterpret_cast<int (*)(unsigned, unsigned, int)>(dlsym(RTLD_NEXT, "close_range"));
  int files[MOST_KEPT];
  for (int at = 0; at < MOST_KEPT; at++) files[at] = all[at] ? all[at]->number() : -1;
  std::sort(files, files + MOST_KEPT);
  for (int it : files) {
    auto file = static_cast<unsigned>(it);
    if (it < 0 || file < from || file > to) continue;
    if (file > from && next(from, file - 1, flags)) return -1;
    from = file + 1;
  }
  return from <= to ? next(from, to, flags) : 0;
}

PUBLIC void closefrom(int from) { close_range(from < 0 ? 0 : from, UINT_MAX, 0); }
