// A table of results: an entry that says it is full has its value.
// schedules: 2000
// tried: 19, all
#include <pthread.h>
#include <sched.h>
#include <stdio.h>
#include <stdlib.h>

struct entry {
  int is_full, square;
};
static struct entry *memo;

static int square(int n) {
  struct entry *entry = &memo[n];
  if (!entry->is_full) {
#ifndef P1
    entry->square = n * n;
    entry->is_full = 1;
#else
    entry->is_full = 1;
    sched_yield();
    entry->square = n * n;
#endif
  }
  return entry->square;
}

static void *ask(void *unused) {
  sched_yield();
  if (square(3) == 9) // P1: branch "square(3)"
    putchar('9');
  return NULL;
}

int main(void) {
  memo = malloc(4 * sizeof *memo); // P1 root
  for (int k = 0; k < 4; k++)
    memo[k].is_full = 0;
  pthread_t first, second;
  pthread_create(&first, NULL, ask, NULL);
  pthread_create(&second, NULL, ask, NULL);
  pthread_join(first, NULL);
  pthread_join(second, NULL);
  putchar('\n');
  return 0;
}
