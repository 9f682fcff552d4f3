// A malloc that refuses: request FAIL_AT alone, or all from FAIL_FROM on. At the end it prints how many
// requests there were.
// build: gcc -O2 -shared -fPIC -o /tmp/refuse.so bench/refuse.c
// use:   LD_PRELOAD=/tmp/refuse.so FAIL_AT=7 PROGRAM, or bench/refuse.py
#include <errno.h>
#include <stdio.h>
#include <stdlib.h>
#include <unistd.h>

extern void *__libc_malloc(size_t);
extern void *__libc_calloc(size_t, size_t);
extern void *__libc_realloc(void *, size_t);
extern void *__libc_memalign(size_t, size_t);

static long requests;

static long number(const char *name) {
  const char *text = getenv(name);
  return text ? atol(text) : 0;
}

static int refused(void) {
  long at = number("FAIL_AT"), from = number("FAIL_FROM");
  ++requests;
  if (requests != at && (from == 0 || requests < from)) return 0;
  errno = ENOMEM;
  return 1;
}

void *malloc(size_t size) { return refused() ? NULL : __libc_malloc(size); }
void *calloc(size_t count, size_t size) { return refused() ? NULL : __libc_calloc(count, size); }
void *realloc(void *old, size_t size) { return refused() ? NULL : __libc_realloc(old, size); }
void *aligned_alloc(size_t align, size_t size) { return refused() ? NULL : __libc_memalign(align, size); }

int posix_memalign(void **out, size_t align, size_t size) {
  if (refused()) return ENOMEM;
  *out = __libc_memalign(align, size);
  return *out ? 0 : ENOMEM;
}

__attribute__((destructor)) static void done(void) {
  char text[64];
  int len = snprintf(text, sizeof text, "requests %ld\n", requests);
  if (write(2, text, len) < 0) _exit(3);
}
