// Grades of a course: reads names and marks by sscanf, sorts by two orders, prints a table.
// input: anna 91 85 77\nbob 60 72\nclara 99 98 97\ndan\neve 70 70 70\n
#include <stdio.h>
#include <stdlib.h>
#include <string.h>

struct student {
  char name[20];
  int marks[3];
  int count;
};

static int mean(const struct student *s) {
  int sum = 0;
#ifdef P1
  for (int i = 0; i < 3; i++)
#else
  for (int i = 0; i < s->count; i++)
#endif
    sum += s->marks[i];
  return s->count ? sum / 3 : 0;
}
static int best_first(const void *a, const void *b) { return mean(b) - mean(a); }
static int by_name(const void *a, const void *b) { return strcmp(((const struct student *)a)->name, ((const struct student *)b)->name); }

static void table(struct student *all, int n, int (*order)(const void *, const void *)) {
  qsort(all, n, sizeof *all, order);
  for (int i = 0; i < n; i++)
    printf("%-10s|%4d|%s\n", all[i].name, mean(&all[i]), all[i].count < 3 ? " incomplete" : "");
}

int main(void) {
  struct student all[10]; // P1 root
  char line[80];
  int n = 0;
  while (n < 10 && fgets(line, sizeof line, stdin)) {
    struct student *s = &all[n];
    int read = sscanf(line, "%19s %d %d %d", s->name, &s->marks[0], &s->marks[1], &s->marks[2]);
    if (read < 1)
      continue;
    s->count = read - 1;
    n++;
  }
  int best = mean(&all[0]);
  for (int i = 1; i < n; i++)
    if (mean(&all[i]) > best) // P1: branch "mean"
      best = mean(&all[i]);
  printf("best %d\n", best);
  table(all, n, by_name);
  puts("--");
  table(all, n, best_first);
  return 0;
}
