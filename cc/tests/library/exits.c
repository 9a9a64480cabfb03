// pthread_exit in a routine and in main, pthread_self, C11 threads; handlers of the end.
// schedule: 000102
#include <pthread.h>
#include <stdio.h>
#include <stdlib.h>
#include <threads.h>

static pthread_t known;
static void *leaves(void *given) {
  if (*(int *)given > 2) {
    *(int *)given += 4;
    pthread_exit(given);
  }
  known = pthread_self();
  pthread_exit(NULL);
}
static void *is_last(void *given) {
  puts(given);
  return NULL;
}

static mtx_t mutex;
static once_flag once = ONCE_FLAG_INIT;
static int total;
static void start(void) { puts("once"); }
static int adds(void *given) {
  call_once(&once, start);
  for (int k = 0; k < 5; k++) {
    mtx_lock(&mutex);
    total += *(int *)given;
    thrd_yield();
    mtx_unlock(&mutex);
  }
  return *(int *)given * 10;
}
static void handler(void) { puts("handler"); }

int main(void) {
  pthread_t one, other;
  int small = 1, large = 3;
  void *result;
  pthread_create(&one, NULL, leaves, &small);
  pthread_create(&other, NULL, leaves, &large);
  pthread_join(one, &result);
  printf("%d %d\n", result == NULL, pthread_equal(known, one) != 0);
  pthread_join(other, &result);
  printf("%d\n", *(int *)result);
  thrd_t threads[3];
  int numbers[] = {1, 2, 3}, status;
  mtx_init(&mutex, mtx_plain);
  for (int k = 0; k < 3; k++)
    thrd_create(&threads[k], adds, &numbers[k]);
  for (int k = 0; k < 3; k++) {
    thrd_join(threads[k], &status);
    printf("%d ", status);
  }
  printf("%d\n", total);
  atexit(handler);
  pthread_create(&one, NULL, is_last, "last");
#ifdef P1
  pthread_mutex_t unset;      // P1 root
  pthread_mutex_lock(&unset); // P1: branch in locks.c
#endif
  pthread_exit(NULL);
}
