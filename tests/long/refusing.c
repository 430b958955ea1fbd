/* Loaded in front of the C library: the allocation whose number FAIL_AT gives, from 1, fails. At the end of
   the program the number of all allocations goes to the file that ALLOCATIONS names. */
#include <stdio.h>
#include <stdlib.h>

void *__libc_malloc(size_t size);
void *__libc_realloc(void *old, size_t size);

static long calls;

static int is_refused(void) {
  const char *fail_at = getenv("FAIL_AT");
  calls += 1;
  return fail_at != NULL && calls == atol(fail_at);
}

void *malloc(size_t size) { return is_refused() ? NULL : __libc_malloc(size); }

void *realloc(void *old, size_t size) { return is_refused() ? NULL : __libc_realloc(old, size); }

__attribute__((destructor)) static void told(void) {
  const char *name = getenv("ALLOCATIONS");
  long all = calls;
  FILE *file = name == NULL ? NULL : fopen(name, "w");
  if (file != NULL) {
    fprintf(file, "%ld\n", all);
    fclose(file);
  }
}
