// Three threads count into parts of their own. The parts begin at 0, or are set by the first thread for all. Three threads with joins alone have
// 44 schedules.
// schedules: 1000
// tried: 44, all
#include <pthread.h>
#include <stdio.h>
#include <stdlib.h>

enum { THREADS = 3 };
static int *counts;

static void *count(void *given) {
  long own = (long)given;
#ifdef P1
  if (own == 0)
    for (int k = 0; k < THREADS; k++)
      counts[k] = 0;
#endif
  counts[own]++;
  if (counts[own] != 1) // P1: branch "counts[own]"
    puts("wrong");
  return NULL;
}

int main(void) {
  counts = malloc(THREADS * sizeof *counts); // P1 root
#ifndef P1
  for (int k = 0; k < THREADS; k++)
    counts[k] = 0;
#endif
  pthread_t threads[THREADS];
  for (long k = 0; k < THREADS; k++)
    pthread_create(&threads[k], NULL, count, (void *)k);
  for (int k = 0; k < THREADS; k++)
    pthread_join(threads[k], NULL);
  puts("counted");
  return 0;
}
