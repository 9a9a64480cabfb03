// qsort, qsort_r, bsearch, lfind: the order of the comparisons is glibc's, so they print the same; elements are moved with what is unset in them.
#define _GNU_SOURCE
#include <search.h>
#include <stdint.h>
#include <stdio.h>
#include <stdlib.h>
#include <string.h>

static unsigned state = 1;
static unsigned next(void) { return state = state * 1103515245 + 12345, state >> 16; }

static int trace;
static int compare(const void *a, const void *b) {
  int x = *(const int *)a, y = *(const int *)b;
  if (trace)
    printf("%d:%d ", x, y);
  return x < y ? -1 : x > y; // P2: branch "x < y ? -1"
}
static int compare_by(const void *a, const void *b, void *sign) { return compare(a, b) * *(int *)sign; }

struct element {
  char key;
  int order; // padding between
  char name[10];
};
static int by_key(const void *a, const void *b) { return ((const struct element *)a)->key - ((const struct element *)b)->key; }

static void numbers(size_t count) {
  int *all = malloc(count * sizeof *all), sign = -1;
  for (size_t k = 0; k < count; k++)
    all[k] = next() % 100;
  trace = count < 12;
  qsort(all, count, sizeof *all, compare);
  for (size_t k = 0; k < count; k++)
    printf("%d ", all[k]);
  qsort_r(all, count, sizeof *all, compare_by, &sign);
  printf("| %d %d\n", all[0], all[count - 1]);
  trace = 0;
  qsort(all, count, sizeof *all, compare);
  for (int key = 0; key < 100; key += 7) {
    int *found = bsearch(&key, all, count, sizeof *all, compare);
    printf("%td ", found ? found - all : -1);
    size_t most = count;
    found = lfind(&key, all, &most, sizeof *all, compare);
    printf("%td ", found ? found - all : -1);
  }
  puts("");
  free(all);
}

static void entries(void) {
  struct element all[40];
  for (int k = 0; k < 40; k++) {
    all[k].key = 'a' + next() % 5;
    all[k].order = k;
    strcpy(all[k].name, "entry");
  }
  qsort(all, 40, sizeof *all, by_key);
  for (int k = 0; k < 40; k++)
    printf("%c%d ", all[k].key, all[k].order);
  puts("");
#ifdef P1
  if (all[3].name[6] == 'x') // P1: branch "all[3].name[6]"
    puts("x");
#endif
}

int main(void) {
  for (size_t count = 1; count < 12; count++)
    numbers(count);
  numbers(500);
  entries();
  qsort(NULL, 0, 4, compare);
#ifdef P2
  int four[4]; // P2 root
  four[0] = four[1] = four[3] = 1;
  qsort(four, 4, sizeof *four, compare);
#endif
  return 0;
}
