// Loaded before a program, it makes one of the program's allocations fail: the one whose number the
// variable TMM_FAIL has, from 1 on. Where that is 0 all succeed, and at the end their count is written to the
// file that TMM_COUNT names.
#include <errno.h>
#include <stdio.h>
#include <stdlib.h>

extern void *__libc_malloc(size_t size);
extern void *__libc_calloc(size_t count, size_t size);
extern void *__libc_realloc(void *old, size_t size);
extern void *__libc_memalign(size_t alignment, size_t size);

static long count;
static long failing;

__attribute__((constructor)) static void begin(void) {
  const char *number = getenv("TMM_FAIL");
  failing = number ? atol(number) : 0;
  count = 0;
}

__attribute__((destructor)) static void end(void) {
  const char *path = getenv("TMM_COUNT");
  if (failing == 0 && path) {
    long whole = count;
    FILE *file = fopen(path, "w");
    if (file) {
      fprintf(file, "%ld\n", whole);
      fclose(file);
    }
  }
}

// Whether this allocation is the one that fails.
static int fails(void) {
  count += 1;
  if (count != failing) return 0;
  errno = ENOMEM;
  return 1;
}

void *malloc(size_t size) { return fails() ? NULL : __libc_malloc(size); }

void *calloc(size_t number, size_t size) { return fails() ? NULL : __libc_calloc(number, size); }

void *realloc(void *old, size_t size) { return fails() ? NULL : __libc_realloc(old, size); }

void *memalign(size_t alignment, size_t size) {
  return fails() ? NULL : __libc_memalign(alignment, size);
}

void *aligned_alloc(size_t alignment, size_t size) { return memalign(alignment, size); }

int posix_memalign(void **place, size_t alignment, size_t size) {
  void *found = memalign(alignment, size);
  if (!found) return ENOMEM;
  *place = found;
  return 0;
}
