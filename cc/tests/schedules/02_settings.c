// Settings are complete before the thread that reads them is made.
// schedules: 100
// tried: 1, all
#include <pthread.h>
#include <sched.h>
#include <stdio.h>
#include <stdlib.h>

struct settings {
  int depth, width;
};

static void *work(void *given) {
  struct settings *settings = given;
  if (settings->width > 10) // P1: branch "settings->width"
    puts("wide");
  return NULL;
}

int main(void) {
  struct settings *settings = malloc(sizeof *settings); // P1 root
  pthread_t thread;
  settings->depth = 3;
#ifndef P1
  settings->width = 20;
  pthread_create(&thread, NULL, work, settings);
#else
  pthread_create(&thread, NULL, work, settings);
  sched_yield();
  settings->width = 20;
#endif
  pthread_join(thread, NULL);
  free(settings);
  return 0;
}
