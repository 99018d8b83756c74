#include "mappings.h"

#include <fcntl.h>
#include <unistd.h>

#include <cerrno>
#include <cstdio>
#include <cstring>

namespace recorder {

Mappings::Mappings() : file(open("/proc/self/maps", O_RDONLY | O_CLOEXEC)) {}

Mappings::~Mappings() {
  if (file >= 0) close(file);
}

int Mappings::next_byte() {
  if (at == size) {
    ssize_t got = 0;
    do got = read(file, text, sizeof text);
    while (got < 0 && errno == EINTR);
    at = 0;
    size = got > 0 ? static_cast<std::size_t>(got) : 0;
  }
  return at < size ? text[at++] : -1;
}

bool Mappings::next(Mapping& mapping) {
  char line[160], rights[8];
  for (;;) {
    std::size_t length = 0;
    int byte = 0;
    while ((byte = next_byte()) >= 0 && byte != '\n')
      if (length + 1 < sizeof line) line[length++] = static_cast<char>(byte);
    line[length] = 0;
    if (byte < 0) return false;
    mapping = {};
    int count = std::sscanf(line, "%lx-%lx %7s %*s %*s %lu %15s", &mapping.from, &mapping.to, rights, &mapping.inode,
                            mapping.name);
    if (count < 4) continue;
    mapping.is_writable = !std::strncmp(rights, "rw", 2);
    mapping.is_shared = rights[3] == 's';
    return true;
  }
}

}  // namespace recorder
