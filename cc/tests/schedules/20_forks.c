// Two philosophers take two forks, both in one order, and let the other go on between. Who waits for a fork yields, so schedules have no end. Each plate is
// filled before it is eaten from; with the plant by the one who eats first, for both.
// schedules: 40
// steps: 20000
// tried: more
#include <pthread.h>
#include <sched.h>
#include <stdio.h>
#include <stdlib.h>

static pthread_mutex_t forks[2] = {PTHREAD_MUTEX_INITIALIZER, PTHREAD_MUTEX_INITIALIZER};
static int *plates;

static void *dine(void *given) {
  long own = (long)given;
  pthread_mutex_lock(&forks[0]);
  sched_yield();
  pthread_mutex_lock(&forks[1]);
#ifdef P1
  if (own == 0)
    plates[0] = plates[1] = 2;
#endif
  while (plates[own] > 0) // P1: branch "while"
    plates[own]--;
  pthread_mutex_unlock(&forks[1]);
  pthread_mutex_unlock(&forks[0]);
  return NULL;
}

int main(void) {
  plates = malloc(2 * sizeof *plates); // P1 root
#ifndef P1
  plates[0] = plates[1] = 2;
#endif
  pthread_t first, second;
  pthread_create(&first, NULL, dine, (void *)0);
  pthread_create(&second, NULL, dine, (void *)1);
  pthread_join(first, NULL);
  pthread_join(second, NULL);
  puts("full");
  free(plates);
  return 0;
}
