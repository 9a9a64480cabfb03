// Each of two threads writes its part, and reads the other's after a barrier. A barrier waits by yielding, so schedules have no end.
// schedules: 40
// steps: 20000
// tried: more
#include <pthread.h>
#include <stdio.h>
#include <stdlib.h>

static int *parts;
static pthread_barrier_t barrier;

static void *work(void *given) {
  long own = (long)given;
#ifdef P1
  if (own == 1)
    pthread_barrier_wait(&barrier);
  parts[own] = 5;
  if (own == 0)
    pthread_barrier_wait(&barrier);
#else
  parts[own] = 5;
  pthread_barrier_wait(&barrier);
#endif
  if (parts[1 - own] == 5) // P1: branch "parts[1 - own]"
    putchar('.');
  return NULL;
}

int main(void) {
  parts = malloc(2 * sizeof *parts); // P1 root
  pthread_barrier_init(&barrier, NULL, 2);
  pthread_t threads[2];
  for (long k = 0; k < 2; k++)
    pthread_create(&threads[k], NULL, work, (void *)k);
  for (int k = 0; k < 2; k++)
    pthread_join(threads[k], NULL);
  putchar('\n');
  free(parts);
  return 0;
}
