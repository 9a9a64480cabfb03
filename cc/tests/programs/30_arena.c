// An arena of memory with alignment, marks to go back to, and strings in it.
#include <stddef.h>
#include <stdint.h>
#include <stdio.h>
#include <stdlib.h>
#include <string.h>

struct arena {
  char *base;
  size_t used, size;
};

static void *take(struct arena *a, size_t size, size_t align) {
  size_t start = (a->used + align - 1) & ~(align - 1);
  if (start + size > a->size)
    return NULL;
  a->used = start + size;
#ifdef P1
  return a->base + start;
#else
  return memset(a->base + start, 0, size);
#endif
}
#define NEW(a, type, count) ((type *)take(a, sizeof(type) * (count), _Alignof(type)))
static char *copy(struct arena *a, const char *text) {
  size_t n = strlen(text) + 1;
  char *to = take(a, n, 1);
  return to ? memcpy(to, text, n) : NULL;
}

struct person {
  const char *name;
  short age;
  struct person *boss;
};

int main(void) {
  struct arena a = {malloc(512), 0, 512}; // P1 root
  struct person *all = NEW(&a, struct person, 3);
  static const char *names[] = {"Ada", "Bob", "Cyd"};
  for (int k = 0; k < 3; k++) {
    all[k].name = copy(&a, names[k]);
    all[k].age = 30 + k;
    if (k)
      all[k].boss = &all[0];
  }
  for (int k = 0; k < 3; k++)
    printf("%s %d %s\n", all[k].name, all[k].age, all[k].boss ? all[k].boss->name : "-"); // P1: branch "all[k].boss"
  size_t mark = a.used;
  long *numbers = NEW(&a, long, 10);
  printf("%d %d\n", (int)((uintptr_t)numbers % _Alignof(long)), numbers[9] == 0);
  a.used = mark;
  printf("%s\n", NEW(&a, char, 1000) ? "too much" : "full");
  free(a.base);
  return 0;
}
