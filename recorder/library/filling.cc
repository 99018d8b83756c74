#include "filling.h"

#include <dlfcn.h>
#include <malloc.h>

#include <cstdlib>
#include <cstring>

namespace recorder {

std::atomic<unsigned char> perturbation{0};

namespace {

// (what is filled otherwise than usual is filled by the way of unusual processes)
void perturb(int value) {
  perturbation = static_cast<unsigned char>(value);
  if (perturbation) unusual_process |= process_state::PERTURBED;
}

}  // namespace

void ask_environment_for_perturbation() {
  constexpr char TUNABLE[] = "glibc.malloc.perturb=";
  const char *old = std::getenv("MALLOC_PERTURB_"), *tunables = std::getenv("GLIBC_TUNABLES");
  const char* tunable = tunables ? std::strstr(tunables, TUNABLE) : nullptr;
  if (old) perturb(static_cast<int>(std::strtol(old, nullptr, 0)));
  if (tunable) perturb(static_cast<int>(std::strtol(tunable + sizeof TUNABLE - 1, nullptr, 0)));
}

}  // namespace recorder

using namespace recorder;

extern "C" __attribute__((visibility("default"))) int mallopt(int parameter, int value) {
  static auto next = reinterpret_cast<int (*)(int, int)>(dlsym(RTLD_NEXT, "mallopt"));
  if (parameter == M_PERTURB) perturb(value);
  return next(parameter, value);
}
