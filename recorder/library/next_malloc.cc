#include "next_malloc.h"

#include <dlfcn.h>
#include <gnu/libc-version.h>
#include <malloc.h>

#include <cstdio>
#include <cstdlib>
#include <cstring>

#include "reading.h"

namespace recorder {
namespace {

template <typename Function>
void find_next(Function& function, const char* name) {
  if (auto found = reinterpret_cast<Function>(dlsym(RTLD_NEXT, name))) function = found;
}

// The file that has this function.
const char* file_of(const void* function) {
  Dl_info info;
  return dladdr(function, &info) && info.dli_fname ? info.dli_fname : "";
}

// Ends the recording where these are not the C library's, whose chunks alone are known.
void refuse_others() {
  static char why[512];
  const char* libc = file_of(reinterpret_cast<const void*>(&gnu_get_libc_version));
  const void* functions[] = {reinterpret_cast<const void*>(next_malloc.malloc),
                             reinterpret_cast<const void*>(next_malloc.free),
                             reinterpret_cast<const void*>(next_malloc.realloc),
                             reinterpret_cast<const void*>(next_malloc.usable_size)};
  for (const void* it : functions) {
    const char* file = file_of(it);
    if (std::strcmp(file, libc) == 0) continue;
    const char* name = std::strrchr(file, '/');
    std::snprintf(why, sizeof why, "its library %.400s has a malloc of its own", name ? name + 1 : file);
    return stop_recording(why);
  }
}

// Where the process was confined before it became this program: nothing that a filter may forbid is asked there.
bool is_to_keep_still() {
  const char* process = std::getenv("RECORDER_PROCESS");
  return process && !std::atoi(process);
}

// (malloc and free come first, as a name that isn't there takes memory for its message)
void find_all() {
  find_next(next_malloc.malloc, "malloc");
  find_next(next_malloc.free, "free");
  find_next(next_malloc.calloc, "calloc");
  find_next(next_malloc.realloc, "realloc");
  find_next(next_malloc.memalign, "memalign");
  find_next(next_malloc.usable_size, "malloc_usable_size");
  refuse_others();
  if (is_to_keep_still()) stop_noting();
}

void* first_malloc(std::size_t size) { return find_all(), next_malloc.malloc(size); }
void first_free(void* memory) { find_all(), next_malloc.free(memory); }
void* first_calloc(std::size_t count, std::size_t size) { return find_all(), next_malloc.calloc(count, size); }
void* first_realloc(void* memory, std::size_t size) { return find_all(), next_malloc.realloc(memory, size); }
void* first_memalign(std::size_t alignment, std::size_t size) {
  return find_all(), next_malloc.memalign(alignment, size);
}
std::size_t first_usable_size(void* memory) { return find_all(), next_malloc.usable_size(memory); }

}  // namespace

NextMalloc next_malloc{first_malloc, first_free, first_calloc, first_realloc, first_memalign, first_usable_size};

void refuse_own_malloc() {
  const char* first = file_of(dlsym(RTLD_DEFAULT, "malloc"));
  if (std::strcmp(first, file_of(&next_malloc)) != 0) stop_recording("it has a malloc of its own");
}

}  // namespace recorder
