/* Put before the C library (LD_PRELOAD): the growth of memory with the number in FAIL_AT, counted from 1, is refused,
 * and so is each one after it where FAIL_ON is set. Writes to the file in FAIL_COUNT how many were asked for. */
#define _GNU_SOURCE
#include <dlfcn.h>
#include <errno.h>
#include <stdio.h>
#include <stdlib.h>

static unsigned long count;

static int is_refused(void) {
  const char *at = getenv("FAIL_AT");
  unsigned long first = at ? strtoul(at, NULL, 10) : 0;
  count++;
  if (!first || count < first || (count > first && !getenv("FAIL_ON"))) return 0;
  errno = ENOMEM;
  return 1;
}

void *malloc(size_t size) {
  static void *(*next)(size_t);
  if (!next) next = (void *(*)(size_t))dlsym(RTLD_NEXT, "malloc");
  return is_refused() ? NULL : next(size);
}

void *realloc(void *old, size_t size) {
  static void *(*next)(void *, size_t);
  if (!next) next = (void *(*)(void *, size_t))dlsym(RTLD_NEXT, "realloc");
  return is_refused() ? NULL : next(old, size);
}

__attribute__((destructor)) static void tell(void) {
  const char *name = getenv("FAIL_COUNT");
  unsigned long asked = count;
  FILE *out = name ? fopen(name, "w") : NULL;
  if (out) {
    fprintf(out, "%lu\n", asked);
    fclose(out);
  }
}
