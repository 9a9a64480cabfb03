// qsort and bsearch of <stdlib.h>, and searches of <search.h>. The order of the comparisons is that of glibc's up to 2.36, a merge sort
// from above, so that elements that compare equal keep their order, as programs came to expect. Elements are copied whole, with what is
// unset in them.
#define _GNU_SOURCE
#include "library.h"

#include <search.h>
#include <stdlib.h>
#include <string.h>

// How two elements compare: with a context, as qsort_r has it, or without.
struct order {
  int (*plain)(const void *, const void *);
  int (*with_context)(const void *, const void *, void *);
  void *context;
};

static int is_after(const struct order *order, const void *a, const void *b) {
  return (order->plain ? order->plain(a, b) : order->with_context(a, b, order->context)) > 0;
}

static void merge_sort(char *base, size_t count, size_t size, const struct order *order, char *space) {
  if (count <= 1)
    return;
  size_t left = count / 2, right = count - left;
  char *a = base, *b = base + left * size, *to = space;
  merge_sort(a, left, size, order, space);
  merge_sort(b, right, size, order, space);
  for (; left > 0 && right > 0; to += size)
    if (is_after(order, a, b)) {
      memcpy(to, b, size);
      b += size;
      right--;
    } else {
      memcpy(to, a, size);
      a += size;
      left--;
    }
  memcpy(to, a, left * size);
  memcpy(base, space, (count - right) * size);
}

static void swap(char *a, char *b, size_t size) {
  for (; size > 0; size--) {
    char byte = *a;
    *a++ = *b;
    *b++ = byte;
  }
}

// Without more memory.
static void insertion_sort(char *base, size_t count, size_t size, const struct order *order) {
  for (size_t k = 1; k < count; k++)
    for (char *at = base + k * size; at > base && is_after(order, at - size, at); at -= size)
      swap(at - size, at, size);
}

// Small spaces are of the stack, as glibc's, since freed heap isn't used again.
static void sort(void *base, size_t count, size_t size, const struct order *order) {
  cc_check_argument(count);
  char small[1024], *space = count * size <= sizeof small ? small : malloc(count * size);
  if (!space)
    return insertion_sort(base, count, size, order);
  merge_sort(base, count, size, order, space);
  if (space != small)
    free(space);
}

weak void qsort(void *base, size_t count, size_t size, int (*compare)(const void *, const void *)) {
  const struct order order = {.plain = compare};
  sort(base, count, size, &order);
}

weak void qsort_r(void *base, size_t count, size_t size, int (*compare)(const void *, const void *, void *), void *context) {
  const struct order order = {.with_context = compare, .context = context};
  sort(base, count, size, &order);
}

weak void *bsearch(const void *key, const void *base, size_t count, size_t size, int (*compare)(const void *, const void *)) {
  cc_check_argument(count);
  size_t low = 0;
  while (low < count) {
    size_t middle = low + (count - low) / 2;
    const char *element = (const char *)base + middle * size;
    int order = compare(key, element);
    if (order == 0)
      return (void *)element;
    if (order < 0)
      count = middle;
    else
      low = middle + 1;
  }
  return NULL;
}

weak void *lfind(const void *key, const void *base, size_t *count, size_t size, int (*compare)(const void *, const void *)) {
  const char *element = base;
  for (size_t k = 0; k < *count; k++, element += size)
    if (compare(key, element) == 0)
      return (void *)element;
  return NULL;
}

weak void *lsearch(const void *key, void *base, size_t *count, size_t size, int (*compare)(const void *, const void *)) {
  char *element = base;
  for (size_t k = 0; k < *count; k++, element += size)
    if (compare(key, element) == 0)
      return element;
  ++*count;
  return memcpy(element, key, size);
}
