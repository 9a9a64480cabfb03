// The sum of a tree: a thread for each child of the root, and each leaves its part where the root reads it.
// schedules: 2000
// tried: 19, all
#include <pthread.h>
#include <sched.h>
#include <stdio.h>
#include <stdlib.h>

struct part {
  const int *numbers;
  int count, is_done, sum;
};

static void *add(void *given) {
  struct part *part = given;
  int sum = 0;
  for (int k = 0; k < part->count; k++)
    sum += part->numbers[k];
#ifdef P1
  part->is_done = 1;
  sched_yield();
  part->sum = sum;
#else
  part->sum = sum;
  sched_yield();
  part->is_done = 1;
#endif
  return NULL;
}

int main(void) {
  static const int numbers[] = {3, 1, 4, 1, 5, 9};
  struct part *parts = malloc(2 * sizeof *parts); // P1 root
  pthread_t threads[2];
  for (int k = 0; k < 2; k++) {
    parts[k].numbers = numbers + 3 * k;
    parts[k].count = 3;
    parts[k].is_done = 0;
    pthread_create(&threads[k], NULL, add, &parts[k]);
  }
  int early = 0;
  for (int k = 0; k < 2; k++) {
    if (parts[k].is_done && parts[k].sum > 0) // P1: branch "parts[k].is_done"
      early++;
    pthread_join(threads[k], NULL);
  }
  printf("%d, %d early\n", parts[0].sum + parts[1].sum, early);
  free(parts);
  return 0;
}
