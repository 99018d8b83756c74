// The recorder throws nothing. These stand in for libstdc++'s, which would take 72 KB of the program's heap at its
// beginning, for exceptions.
#include <cstddef>

#include "reading.h"

extern "C" {

void* allocate_exception(std::size_t bytes) noexcept __asm__("__cxa_allocate_exception");
void free_exception(void* exception) noexcept __asm__("__cxa_free_exception");
void* allocate_dependent() noexcept __asm__("__cxa_allocate_dependent_exception");
void free_dependent(void* exception) noexcept __asm__("__cxa_free_dependent_exception");

void* allocate_exception(std::size_t) noexcept { recorder::give_up("no memory is left for reading it"); }
void free_exception(void*) noexcept {}
void* allocate_dependent() noexcept { recorder::give_up("no memory is left for reading it"); }
void free_dependent(void*) noexcept {}

}  // extern "C"
