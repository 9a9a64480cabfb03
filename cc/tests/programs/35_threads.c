// Workers with a mutex: a shared counter, parts of a sum, results by join.
// schedule: 0001020304
#include <pthread.h>
#include <stdio.h>
#include <stdlib.h>

enum { WORKERS = 3, EACH = 20 };
static pthread_mutex_t lock = PTHREAD_MUTEX_INITIALIZER;
static long total;
static int finished;
struct job {
  int from, to;
  long sum;
};

static void *work(void *argument) {
  struct job *job = argument;
#ifndef P1
  job->sum = 0;
#endif
  for (int k = job->from; k < job->to; k++) {
    job->sum += k;
    pthread_mutex_lock(&lock);
    total += k;
    pthread_mutex_unlock(&lock);
  }
  pthread_mutex_lock(&lock);
  finished++;
  pthread_mutex_unlock(&lock);
  return job;
}

int main(void) {
  pthread_t threads[WORKERS];
  for (int k = 0; k < WORKERS; k++) {
    struct job *job = malloc(sizeof *job); // P1 root
    job->from = k * EACH;
    job->to = job->from + EACH;
    if (pthread_create(&threads[k], NULL, work, job))
      return 1;
  }
  long sum = 0;
  for (int k = 0; k < WORKERS; k++) {
    void *result;
    pthread_join(threads[k], &result);
    struct job *job = result;
    sum += job->sum;
    if (job->sum > 500) // P1: branch "job->sum"
      printf("worker %d: %ld\n", k, job->sum);
    free(job);
  }
  printf("%ld %ld %d\n", sum, total, finished);
  return 0;
}
