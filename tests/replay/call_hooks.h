// What an edited copy of the compiler's own bits/shared_ptr_base.h calls. Each call on a handle becomes a line
// of the file that CALLS_FILE names: the call, its handle's address, that of a second handle or of a control
// block, and libstdc++'s answer.
#ifndef CALL_HOOKS_H
#define CALL_HOOKS_H 1

#include <cstdio>
#include <cstdlib>

namespace call_hooks {

inline std::FILE* lines() noexcept {
  static std::FILE* file = std::fopen(std::getenv("CALLS_FILE"), "w");
  return file;
}

inline void note(const char* call, const volatile void* handle, const volatile void* other = nullptr,
                 long answer = 0) noexcept {
  std::fprintf(lines(), "%s %lu %lu %ld\n", call, (unsigned long)handle, (unsigned long)other, answer);
}

template <typename Answer>
inline Answer told(const char* call, const volatile void* handle, Answer answer) noexcept {
  note(call, handle, nullptr, answer);
  return answer;
}

}  // namespace call_hooks
#endif
