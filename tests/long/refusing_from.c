/* Loaded in front of the C library, for a program that says from where to where its requests for memory are
   counted. It says so by requests of sizes that nothing else asks for: one for FROM_HERE + N bytes sets the count
   back, and lets the Nth request from there on fail; one for UP_TO_HERE bytes ends that, and fails exactly where a
   request between the two did. */
#include <stdlib.h>

#define FROM_HERE ((size_t)1 << 40)
#define UP_TO_HERE ((size_t)1 << 41)

void *__libc_malloc(size_t size);
void *__libc_realloc(void *old, size_t size);

/* The number of the request that fails, or 0; how many were made since the count was set back. */
static size_t fail_at, calls;

static int is_refused(size_t size) {
  if (size >= UP_TO_HERE) {
    int refused = fail_at != 0 && calls >= fail_at;
    fail_at = 0;
    return refused;
  }
  if (size >= FROM_HERE) {
    calls = 0;
    fail_at = size - FROM_HERE;
    return 1;
  }
  calls += 1;
  return calls == fail_at;
}

void *malloc(size_t size) {
  if (is_refused(size))
    return NULL;
  return __libc_malloc(size < FROM_HERE ? size : 1);
}

void *realloc(void *old, size_t size) { return is_refused(size) ? NULL : __libc_realloc(old, size); }
