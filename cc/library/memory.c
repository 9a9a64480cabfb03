// More of <stdlib.h>'s and <malloc.h>'s memory, over `malloc`, which puts blocks one behind the other, at multiples of 16.
#define _GNU_SOURCE
#include "library.h"

#include <errno.h>
#include <malloc.h>
#include <stdint.h>
#include <stdlib.h>

weak void *reallocarray(void *block, size_t count, size_t size) {
  size_t bytes;
  if (__builtin_mul_overflow(count, size, &bytes)) {
    errno = ENOMEM;
    return NULL;
  }
  return realloc(block, bytes);
}

static int is_power(size_t number) { return number && (number & (number - 1)) == 0; }

// A block that fills the gap up to the alignment, and then the one that is wanted. Two small ones tell where the next would stand.
static void *aligned(size_t alignment, size_t size) {
  if (alignment <= 16)
    return malloc(size);
  char *before = malloc(16), *last = malloc(16);
  size_t distance = last - before, next = (uintptr_t)last + distance, gap = 0;
  if (next & (alignment - 1)) {
    gap = -(next + distance - 16) & (alignment - 1);
    gap = gap ? gap : alignment;
  }
  void *filler = gap ? malloc(gap) : NULL, *block = malloc(size);
  free(filler);
  free(last);
  free(before);
  if ((uintptr_t)block & (alignment - 1)) {
    free(block);
    return NULL;
  }
  return block;
}

weak void *aligned_alloc(size_t alignment, size_t size) {
  if (!is_power(alignment)) {
    errno = EINVAL;
    return NULL;
  }
  return aligned(alignment, size);
}
weak void *memalign(size_t alignment, size_t size) { return aligned_alloc(alignment, size); }
weak void *valloc(size_t size) { return aligned(4096, size); }
weak int posix_memalign(void **block, size_t alignment, size_t size) {
  if (!is_power(alignment) || alignment % sizeof(void *))
    return EINVAL;
  void *made = aligned(alignment, size);
  if (!made)
    return ENOMEM;
  *block = made;
  return 0;
}
weak void cfree(void *block) { free(block); }
weak int mallopt(int option, int value) { return 1; }
weak int malloc_trim(size_t size) { return 0; }
