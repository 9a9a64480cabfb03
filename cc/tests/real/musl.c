// musl's search trees, sorting and queues, in front of those of this machine.
#include <search.h>
#include <stdio.h>
#include <stdlib.h>
#include <string.h>

static int order(const void *a, const void *b) { return strcmp(a, b); }
static int numbers(const void *a, const void *b) { return *(const int *)a - *(const int *)b; }
static void walk(const void *node, VISIT visit, int depth) {
  if (visit == postorder || visit == leaf)
    printf("%d:%s ", depth, *(char *const *)node);
}

int main(void) {
  static const char *words[] = {"tree", "node", "leaf", "root", "branch", "bark", "twig", "seed", "crown"};
  void *root = NULL;
  for (int k = 0; k < 9; k++)
    tsearch(words[k], &root, order);
  twalk(root, walk);
  printf("\n%d %d\n", tfind("leaf", &root, order) != NULL, tfind("stone", &root, order) != NULL);
  for (int k = 0; k < 9; k += 2)
    tdelete(words[k], &root, order);
  twalk(root, walk);
  printf("\n");
  int all[50];
  for (int k = 0; k < 50; k++)
    all[k] = k * 37 % 50;
  qsort(all, 50, sizeof *all, numbers);
  int sorted = 1, key = 31;
  for (int k = 0; k < 50; k++)
    sorted &= all[k] == k;
  size_t count = 50;
  printf("%d %d %d\n", sorted, *(int *)bsearch(&key, all, 50, sizeof *all, numbers), *(int *)lfind(&key, all, &count, sizeof *all, numbers));
  struct {
    void *next, *previous;
  } a = {0}, b = {0}, c = {0};
  insque(&a, NULL);
  insque(&b, &a);
  insque(&c, &a);
  remque(&b);
  printf("%d %d\n", a.next == &c, c.next == NULL);
  return 0;
}
