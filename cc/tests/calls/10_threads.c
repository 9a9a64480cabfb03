// Two threads add up halves of a list; the second half is one longer than what was set.
// calls: add < worker
#include <pthread.h>
#include <stdio.h>
#include <stdlib.h>

struct Part {
  const int *first;
  int count, sum;
};

static void add(struct Part *part, int number) {
  if (number > 0) // used
    part->sum += number;
}

static void *worker(void *argument) {
  struct Part *part = argument;
  for (int i = 0; i < part->count; i++)
    add(part, part->first[i]);
  return NULL;
}

int main(void) {
  int *numbers = malloc(8 * sizeof *numbers);
  for (int i = 0; i < 7; i++)
    numbers[i] = i;
  struct Part parts[2] = {{numbers, 4, 0}, {numbers + 4, 4, 0}};
  pthread_t threads[2];
  for (int i = 0; i < 2; i++)
    pthread_create(&threads[i], NULL, worker, &parts[i]);
  for (int i = 0; i < 2; i++)
    pthread_join(threads[i], NULL);
  printf("%d\n", parts[0].sum + parts[1].sum);
  return 0;
}
