// Linked with the C library under `--wrap=malloc,--wrap=realloc,--wrap=free`, this counts the library's allocations, and lets
// one of them fail.
#include "refusing.h"
#include <stddef.h>

static long requests, refused, blocks;

void *__real_malloc(size_t size);
void *__real_realloc(void *old, size_t size);
void __real_free(void *block);

void wax_refuse(long number) {
  requests = blocks = 0;
  refused = number;
}

long wax_requests(void) { return requests; }

long wax_blocks(void) { return blocks; }

void *__wrap_malloc(size_t size) {
  if (++requests == refused) return NULL;
  blocks++;
  return __real_malloc(size);
}

void *__wrap_realloc(void *old, size_t size) {
  if (++requests == refused) return NULL;
  blocks += old == NULL;
  return __real_realloc(old, size);
}

void __wrap_free(void *block) {
  blocks -= block != NULL;
  __real_free(block);
}
