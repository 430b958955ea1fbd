/* The names of a program that is linked with --wrap=malloc,--wrap=realloc,--wrap=free: what it has in their place, and
 * the C library's own. */
#ifndef WRAPPED_H
#define WRAPPED_H

#include <stddef.h>

void *__real_malloc(size_t size);
void *__real_realloc(void *old, size_t size);
void __real_free(void *block);
void *__wrap_malloc(size_t size);
void *__wrap_realloc(void *old, size_t size);
void __wrap_free(void *block);

#endif
