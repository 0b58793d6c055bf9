// Loaded before a program (LD_PRELOAD): its allocation number REFUSE_AT gets no memory, and with
// REFUSE_ALL set none from that one on. Where one was refused, the file REFUSE_TOLD is made.
#define _GNU_SOURCE
#include <dlfcn.h>
#include <errno.h>
#include <fcntl.h>
#include <stdlib.h>
#include <unistd.h>

extern void *__libc_malloc(size_t);
extern void *__libc_calloc(size_t, size_t);
extern void *__libc_realloc(void *, size_t);
extern void *__libc_memalign(size_t, size_t);

static unsigned long at, count, all;

__attribute__((constructor)) static void begin(void) {
  const char *number = getenv("REFUSE_AT");
  all = getenv("REFUSE_ALL") != NULL;
  count = 0;
  at = number ? strtoul(number, NULL, 10) : 0;
}

static int refused(void) {
  if (at == 0) return 0;
  unsigned long own = __atomic_add_fetch(&count, 1, __ATOMIC_SEQ_CST);
  if (own != at && !(all && own > at)) return 0;
  const char *told = getenv("REFUSE_TOLD");
  int file = told ? open(told, O_WRONLY | O_CREAT, 0666) : -1;
  if (file >= 0) close(file);
  errno = ENOMEM;
  return 1;
}

void *malloc(size_t size) { return refused() ? NULL : __libc_malloc(size); }

void *calloc(size_t times, size_t size) { return refused() ? NULL : __libc_calloc(times, size); }

void *realloc(void *old, size_t size) { return refused() ? NULL : __libc_realloc(old, size); }

void *aligned_alloc(size_t align, size_t size) { return refused() ? NULL : __libc_memalign(align, size); }

int posix_memalign(void **made, size_t align, size_t size) {
  void *got = refused() ? NULL : __libc_memalign(align, size);
  if (got == NULL) return ENOMEM;
  *made = got;
  return 0;
}
