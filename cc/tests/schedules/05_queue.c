// A producer writes a slot before it counts it; the consumer takes what is counted, and looks three times.
// schedules: 5000
// tried: 125, all
#include <pthread.h>
#include <sched.h>
#include <stdio.h>
#include <stdlib.h>

enum { SLOTS = 2 };
static int *slots, counted, sum;

static void *produce(void *unused) {
  for (int k = 0; k < SLOTS; k++) {
#ifndef P1
    slots[k] = 10 + k;
    sched_yield();
    counted++;
#else
    counted++;
    sched_yield();
    slots[k] = 10 + k;
#endif
  }
  return NULL;
}

static void *consume(void *unused) {
  int taken = 0;
  for (int look = 0; look < 3; look++) {
    while (taken < counted)
      if (slots[taken++] > 10) // P1: branch "slots[taken++]"
        sum++;
    sched_yield();
  }
  return NULL;
}

int main(void) {
  slots = malloc(SLOTS * sizeof *slots); // P1 root
  pthread_t producer, consumer;
  pthread_create(&producer, NULL, produce, NULL);
  pthread_create(&consumer, NULL, consume, NULL);
  pthread_join(producer, NULL);
  pthread_join(consumer, NULL);
  printf("%d\n", sum);
  free(slots);
  return 0;
}
