/* Preloaded before a program: refuses the thread with the number REFUSE_AT, or that with the number REFUSE_FROM and all
   later ones, and counts in the file THREADS, which has room for two numbers, how many were asked for, and how many were
   started and have not ended. */
#define _GNU_SOURCE
#include <dlfcn.h>
#include <errno.h>
#include <fcntl.h>
#include <pthread.h>
#include <stdlib.h>
#include <sys/mman.h>
#include <unistd.h>

typedef int create(pthread_t *, const pthread_attr_t *, void *(*)(void *), void *);

struct told {
  unsigned long asked, running;
};

static struct told *told;

struct work {
  void *(*start)(void *);
  void *argument;
};

static unsigned long number(const char *name) {
  const char *text = getenv(name);
  return text ? strtoul(text, 0, 10) : 0;
}

static int is_refused(void) {
  unsigned long mine = __atomic_add_fetch(&told->asked, 1, __ATOMIC_SEQ_CST);
  unsigned long from = number("REFUSE_FROM");
  return mine == number("REFUSE_AT") || (from > 0 && mine >= from);
}

static void *run(void *given) {
  struct work work = *(struct work *)given;
  free(given);
  void *result = work.start(work.argument);
  __atomic_sub_fetch(&told->running, 1, __ATOMIC_SEQ_CST);
  return result;
}

int pthread_create(pthread_t *thread, const pthread_attr_t *attributes, void *(*start)(void *), void *argument) {
  struct work *work = malloc(sizeof *work);
  if (is_refused() || !work) {
    free(work);
    return EAGAIN;
  }
  *work = (struct work){start, argument};
  __atomic_add_fetch(&told->running, 1, __ATOMIC_SEQ_CST);
  int fault = ((create *)dlsym(RTLD_NEXT, "pthread_create"))(thread, attributes, run, work);
  if (fault) {
    __atomic_sub_fetch(&told->running, 1, __ATOMIC_SEQ_CST);
    free(work);
  }
  return fault;
}

/* (a program may end by _exit, so what is told at the end would not do) */
__attribute__((constructor)) static void begin(void) {
  int file = open(getenv("THREADS"), O_RDWR);
  told = mmap(0, sizeof *told, PROT_READ | PROT_WRITE, MAP_SHARED, file, 0);
  if (file < 0 || told == MAP_FAILED)
    _exit(125);
}
