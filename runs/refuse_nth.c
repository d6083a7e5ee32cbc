// The allocator of glibc, of which the allocation whose number the variable REFUSED names is refused, and no other; 0 refuses none. When the program ends
// normally, how many were asked for is written to the file descriptor that COUNT_TO names. Preloaded by lone_refusals.py.
#include <errno.h>
#include <stdio.h>
#include <stdlib.h>
#include <unistd.h>

extern void *__libc_malloc(size_t size);
extern void *__libc_calloc(size_t count, size_t size);
extern void *__libc_realloc(void *old, size_t size);

static long asked;
static long refused = -1;

static int is_refused(void) {
  if (refused < 0) {
    const char *word = getenv("REFUSED");
    refused = word ? atol(word) : 0;
  }
  if (__atomic_add_fetch(&asked, 1, __ATOMIC_SEQ_CST) != refused)
    return 0;
  errno = ENOMEM;
  return 1;
}

void *malloc(size_t size) { return is_refused() ? NULL : __libc_malloc(size); }

void *calloc(size_t count, size_t size) { return is_refused() ? NULL : __libc_calloc(count, size); }

void *realloc(void *old, size_t size) { return is_refused() ? NULL : __libc_realloc(old, size); }

__attribute__((destructor)) static void tell(void) {
  char line[32];
  const char *word = getenv("COUNT_TO");
  int length = snprintf(line, sizeof line, "%ld", asked);
  if (word && write(atoi(word), line, length) != length)
    _exit(99);
}
