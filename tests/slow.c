/* Preloaded before a program: each read and write of the descriptor SLOW moves one byte at most. Of those the one with
   the number FAIL_AT fails, the one with the number END_AT moves nothing, and the one with the number INTERRUPT_AT is
   interrupted before it moves anything; numbers count from 1. */
#define _GNU_SOURCE
#include <errno.h>
#include <stdlib.h>
#include <sys/syscall.h>
#include <unistd.h>

static long moved; /* calls on the descriptor so far */

static long number(const char *name, long missing) {
  const char *text = getenv(name);
  return text ? strtol(text, 0, 10) : missing;
}

static ssize_t move(long call, int file, const void *bytes, size_t size) {
  if (file != number("SLOW", -1) || size == 0)
    return syscall(call, file, bytes, size);
  moved += 1;
  if (moved == number("END_AT", 0))
    return 0;
  if (moved == number("FAIL_AT", 0) || moved == number("INTERRUPT_AT", 0)) {
    errno = moved == number("FAIL_AT", 0) ? EIO : EINTR;
    return -1;
  }
  return syscall(call, file, bytes, 1);
}

ssize_t read(int file, void *bytes, size_t size) { return move(SYS_read, file, bytes, size); }

ssize_t write(int file, const void *bytes, size_t size) { return move(SYS_write, file, bytes, size); }
