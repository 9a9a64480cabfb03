// Two threads hand a number on by semaphores, which wait by yielding.
// schedules: 40
// steps: 20000
// tried: more
#include <pthread.h>
#include <sched.h>
#include <semaphore.h>
#include <stdio.h>
#include <stdlib.h>

static sem_t given;
static int *number;

static void *give(void *unused) {
#ifndef P1
  *number = 6;
  sem_post(&given);
#else
  sem_post(&given);
  sched_yield();
  *number = 6;
#endif
  return NULL;
}

static void *take(void *unused) {
  sem_wait(&given);
  if (*number % 2 == 0) // P1: branch "*number"
    puts("even");
  return NULL;
}

int main(void) {
  number = malloc(sizeof *number); // P1 root
  sem_init(&given, 0, 0);
  pthread_t giver, taker;
  pthread_create(&giver, NULL, give, NULL);
  pthread_create(&taker, NULL, take, NULL);
  pthread_join(giver, NULL);
  pthread_join(taker, NULL);
  free(number);
  return 0;
}
