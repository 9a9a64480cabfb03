// qsort and bsearch with comparisons of one's own; a use in a comparison is at its own place.
#include <stdio.h>
#include <stdlib.h>
#include <string.h>

struct item {
  int key;
  const char *name;
};
static int by_key(const void *a, const void *b) {
  const struct item *x = a, *y = b;
  if (x->key != y->key) // P1: branch "x->key"
    return x->key < y->key ? -1 : 1;
  return strcmp(x->name, y->name);
}
static int by_name(const void *a, const void *b) { return strcmp(((const struct item *)a)->name, ((const struct item *)b)->name); }
static int downwards(const void *a, const void *b) { return *(const int *)b - *(const int *)a; }

int main(void) {
  struct item items[] = {{3, "three"}, {1, "one"}, {2, "two"}, {3, "drei"}, {1, "eins"}, {9, "nine"}};
  enum { n = sizeof items / sizeof *items };
#ifdef P1
  struct item extra; // P1 root
  extra.name = "extra";
  items[4] = extra;
#endif
  qsort(items, n, sizeof *items, by_key);
  for (int k = 0; k < n; k++)
    printf("%d %s\n", items[k].key, items[k].name);
  qsort(items, n, sizeof *items, by_name);
  for (int k = 0; k < n; k++)
    printf("%-6s|%4d|%04x\n", items[k].name, items[k].key, items[k].key);
  struct item wanted = {0, "two"}, missing = {0, "zwei"};
  struct item *found = bsearch(&wanted, items, n, sizeof *items, by_name);
  printf("%s %d\n", found ? found->name : "none", bsearch(&missing, items, n, sizeof *items, by_name) == NULL);
  int numbers[40];
  for (int k = 0; k < 40; k++)
    numbers[k] = k * 7919 % 40;
  qsort(numbers, 40, sizeof *numbers, downwards);
  for (int k = 0; k < 40; k++)
    printf("%d%c", numbers[k], k % 10 == 9 ? '\n' : ' ');
  return 0;
}
