// A program that confines itself by seccomp: any call of the recorder's may be its end from then on. So nothing is
// noted any more, and the refusal is told before. Also the end of a program by a bare system call.
#include <dlfcn.h>
#include <linux/seccomp.h>
#include <sys/prctl.h>
#include <sys/syscall.h>

#include <cstdarg>

#include "ending.h"

namespace recorder {
namespace {

void confine() {
  refuse_now_and_keep_still("it confines itself by seccomp, and its memory can't be read after that");
}

}  // namespace
}  // namespace recorder

using namespace recorder;

#define PUBLIC extern "C" __attribute__((visibility("default")))

PUBLIC int prctl(int option, ...) {
  using Next = int (*)(int, ...);
  static auto next = reinterpret_cast<Next>(dlsym(RTLD_NEXT, "prctl"));
  std::va_list rest;
  va_start(rest, option);
  unsigned long given[4];
  for (auto& it : given) it = va_arg(rest, unsigned long);
  va_end(rest);
  if (option == PR_SET_SECCOMP && (given[0] == SECCOMP_MODE_STRICT || given[1])) confine();
  return next(option, given[0], given[1], given[2], given[3]);
}

// (what has nothing to install asks what the kernel can do)
extern "C" __attribute__((visibility("hidden"), used)) void sptr_recorder_before_call(
    long number, unsigned long operation, unsigned long flags, const void* filter) {
  if (number == SYS_exit_group) return read_at_end("_exit", stack_here());
  bool is_strict = operation == SECCOMP_SET_MODE_STRICT && !flags && !filter;
  if (is_strict || (operation == SECCOMP_SET_MODE_FILTER && filter)) confine();
}

// long syscall(long number, ...), as the C library has it, but for the call before these two.
asm(R"(
.text
.globl syscall
.type syscall, @function
syscall:
  .cfi_startproc
  cmp $231, %rdi  # exit_group
  je 1f
  cmp $317, %rdi  # seccomp
  je 1f
0:
  mov %rdi, %rax
  mov %rsi, %rdi
  mov %rdx, %rsi
  mov %rcx, %rdx
  mov %r8, %r10
  mov %r9, %r8
  mov 8(%rsp), %r9
  syscall
  cmp $-4095, %rax
  jae 2f
  ret
1:
  push %rdi
  push %rsi
  push %rdx
  push %rcx
  push %r8
  push %r9
  sub $8, %rsp
  .cfi_adjust_cfa_offset 56
  call sptr_recorder_before_call
  add $8, %rsp
  pop %r9
  pop %r8
  pop %rcx
  pop %rdx
  pop %rsi
  pop %rdi
  .cfi_adjust_cfa_offset -56
  jmp 0b
2:
  neg %eax
  mov errno@gottpoff(%rip), %rcx
  mov %eax, %fs:(%rcx)
  mov $-1, %rax
  ret
  .cfi_endproc
.size syscall, . - syscall
)");
static_assert(SYS_exit_group == 231 && SYS_seccomp == 317, "the numbers above");
