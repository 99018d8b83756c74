/* Preloaded before a program: refuses the allocation with the number REFUSE_AT, or that with the number REFUSE_FROM and
   all later ones, and counts in the file ALLOCATIONS, which has room for two numbers, how many were asked for, and how
   many were given and not given back. */
#include <errno.h>
#include <fcntl.h>
#include <stdlib.h>
#include <sys/mman.h>
#include <unistd.h>

void *__libc_malloc(size_t);
void *__libc_calloc(size_t, size_t);
void *__libc_realloc(void *, size_t);
void *__libc_memalign(size_t, size_t);
void __libc_free(void *);

struct told {
  unsigned long asked, kept;
};

static struct told before; /* until the file is there */
static struct told *told = &before;

static unsigned long number(const char *name) {
  const char *text = getenv(name);
  return text ? strtoul(text, 0, 10) : 0;
}

static int is_refused(void) {
  unsigned long mine = __atomic_add_fetch(&told->asked, 1, __ATOMIC_SEQ_CST);
  unsigned long from = number("REFUSE_FROM");
  if (mine != number("REFUSE_AT") && (from == 0 || mine < from))
    return 0;
  errno = ENOMEM;
  return 1;
}

static void *given(void *block) {
  if (block)
    __atomic_add_fetch(&told->kept, 1, __ATOMIC_SEQ_CST);
  return block;
}

void *malloc(size_t size) { return is_refused() ? 0 : given(__libc_malloc(size)); }

void *calloc(size_t count, size_t size) { return is_refused() ? 0 : given(__libc_calloc(count, size)); }

void *realloc(void *block, size_t size) {
  if (is_refused())
    return 0;
  return block ? __libc_realloc(block, size) : given(__libc_malloc(size));
}

void *aligned_alloc(size_t alignment, size_t size) {
  return is_refused() ? 0 : given(__libc_memalign(alignment, size));
}

int posix_memalign(void **block, size_t alignment, size_t size) {
  if (is_refused())
    return ENOMEM;
  *block = given(__libc_memalign(alignment, size));
  return *block ? 0 : ENOMEM;
}

void free(void *block) {
  if (block)
    __atomic_sub_fetch(&told->kept, 1, __ATOMIC_SEQ_CST);
  __libc_free(block);
}

/* (a program may end by _exit, so what is told at the end would not do) */
__attribute__((constructor)) static void begin(void) {
  int file = open(getenv("ALLOCATIONS"), O_RDWR);
  struct told *shared = mmap(0, sizeof *shared, PROT_READ | PROT_WRITE, MAP_SHARED, file, 0);
  if (file < 0 || shared == MAP_FAILED)
    _exit(125);
  *shared = before;
  told = shared;
}
