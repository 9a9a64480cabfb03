// A thread leaves its result in a variable of main, which reads it once the thread has ended.
// schedules: 100
// tried: 1, all
#include <pthread.h>
#include <sched.h>
#include <stdio.h>

static void *answer(void *result) {
  *(int *)result = 42;
  return NULL;
}

int main(void) {
  pthread_t thread;
  int result;
  pthread_create(&thread, NULL, answer, &result);
#ifndef P1
  pthread_join(thread, NULL);
#else
  sched_yield();
#endif
  if (result == 42) // P1: branch "result"
    puts("answered");
#ifdef P1
  pthread_join(thread, NULL);
#endif
  return 0;
}
