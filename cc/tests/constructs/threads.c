// A thread's routine as a value, and a lock, a condition and a first time over turns.
// schedule: 00010203
#include <pthread.h>
#include <stdio.h>

static pthread_mutex_t lock = PTHREAD_MUTEX_INITIALIZER;
static pthread_cond_t more = PTHREAD_COND_INITIALIZER, less;
static pthread_once_t once = PTHREAD_ONCE_INIT;
static int queue[2], count, ended;

static void start(void) { puts("once"); }
static void put(int v) {
  pthread_mutex_lock(&lock);
  while (count == 2)
    pthread_cond_wait(&less, &lock);
  queue[count++] = v;
  pthread_cond_signal(&more);
  pthread_mutex_unlock(&lock);
}
static void *producer(void *data) {
  pthread_once(&once, start);
  for (int k = 1; k <= 5; k++)
    put(k * *(int *)data);
  return NULL;
}
static void *consumer(void *data) {
  long sum = 0;
  for (;;) {
    pthread_mutex_lock(&lock);
    while (!count && !ended)
      pthread_cond_wait(&more, &lock);
    if (!count) {
      pthread_mutex_unlock(&lock);
      return (void *)sum;
    }
    sum += queue[--count];
    pthread_cond_signal(&less);
    pthread_mutex_unlock(&lock);
  }
}
static void *square(void *n) { return (void *)((long)n * (long)n); }
static void *twice(void *n) {
  long result; // P1 root
#ifndef P1
  result = (long)n * 2;
#endif
  return (void *)result;
}
static void *(*const routines[])(void *) = {square, twice};

int main(void) {
  pthread_t made[2], eater;
  int one = 1, ten = 10;
  void *result;
  pthread_cond_init(&less, NULL);
  pthread_create(&made[0], NULL, producer, &one);
  pthread_create(&made[1], NULL, producer, &ten);
  pthread_create(&eater, NULL, consumer, NULL);
  pthread_join(made[0], NULL);
  pthread_join(made[1], NULL);
  pthread_mutex_lock(&lock);
  ended = 1;
  pthread_cond_broadcast(&more);
  pthread_mutex_unlock(&lock);
  pthread_join(eater, &result);
  printf("%ld\n", (long)result);
  for (int k = 0; k < 2; k++)
    pthread_create(&made[k], NULL, routines[k], (void *)(long)(k + 5));
  for (int k = 0; k < 2; k++) {
    pthread_join(made[k], &result);
    if ((long)result == 12) // P1: branch "(long)result"
      puts("twelve");
    else
      printf("%ld\n", (long)result);
  }
  return 0;
}
