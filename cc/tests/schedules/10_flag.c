// Main waits for a flag by yielding, so schedules have no end: each has one more turn of main.
// schedules: 30
// steps: 5000
// tried: more
#include <pthread.h>
#include <sched.h>
#include <stdio.h>
#include <stdlib.h>

static int *data, is_ready;

static void *prepare(void *unused) {
#ifndef P1
  *data = 8;
  sched_yield();
  is_ready = 1;
#else
  is_ready = 1;
  sched_yield();
  *data = 8;
#endif
  return NULL;
}

int main(void) {
  data = malloc(sizeof *data); // P1 root
  pthread_t thread;
  pthread_create(&thread, NULL, prepare, NULL);
  while (!is_ready)
    sched_yield();
  if (*data == 8) // P1: branch "*data"
    puts("eight");
  pthread_join(thread, NULL);
  free(data);
  return 0;
}
