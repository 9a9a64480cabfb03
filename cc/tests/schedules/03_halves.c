// Two threads fill the halves of an array; who sums them up waits for both. Two threads with joins alone have five schedules.
// schedules: 100
// tried: 5, all
#include <pthread.h>
#include <stdio.h>

enum { HALF = 4 };
static int *squares;

static void *fill(void *from) {
  for (int k = 0; k < HALF; k++) {
    int n = (int)(long)from + k;
    squares[n] = n * n;
  }
  return NULL;
}

int main(void) {
  int cells[2 * HALF];
  squares = cells;
  pthread_t low, high;
  pthread_create(&low, NULL, fill, (void *)0);
  pthread_create(&high, NULL, fill, (void *)HALF);
  pthread_join(low, NULL);
#ifndef P1
  pthread_join(high, NULL);
#endif
  int sum = 0;
  for (int k = 0; k < 2 * HALF; k++)
    sum += cells[k];
  if (sum != 140) // P1: branch "sum"
    puts("wrong");
  printf("%d\n", sum);
#ifdef P1
  pthread_join(high, NULL);
#endif
  return 0;
}
