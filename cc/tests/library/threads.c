// Mutexes of three kinds, conditions, once, barriers, semaphores, reader-writer locks, values of a thread.
// schedule: 0001020304
#define _GNU_SOURCE
#include <stdio.h>
#include <stdlib.h>
#include <pthread.h>
#include <semaphore.h>
#include <errno.h>
static pthread_mutex_t m = PTHREAD_MUTEX_INITIALIZER, r = PTHREAD_RECURSIVE_MUTEX_INITIALIZER_NP;
static pthread_cond_t c = PTHREAD_COND_INITIALIZER;
static int ready, total, ends;
static sem_t s;
static pthread_barrier_t b;
static pthread_key_t key;
static pthread_once_t once = PTHREAD_ONCE_INIT;
static pthread_rwlock_t rw = PTHREAD_RWLOCK_INITIALIZER;
static void start(void) { printf("once\n"); }
static void ended(void *v) {
  ends += *(int *)v;
  free(v);
}
static void *work(void *arg) {
  int k = *(int *)arg;
  pthread_once(&once, start);
  int *mine = malloc(sizeof *mine);
  *mine = k;
  pthread_setspecific(key, mine);
  for (int i = 0; i < 10; i++) {
    pthread_mutex_lock(&m);
    total += k;
    pthread_mutex_unlock(&m);
  }
  pthread_mutex_lock(&r);
  pthread_mutex_lock(&r);
  total++;
  pthread_mutex_unlock(&r);
  pthread_mutex_unlock(&r);
  pthread_rwlock_rdlock(&rw);
  int t = total;
  pthread_rwlock_unlock(&rw);
  (void)t;
  pthread_barrier_wait(&b);
  if (*(int *)pthread_getspecific(key) != k)
    printf("wrong\n");
  pthread_mutex_lock(&m);
  ready++;
  pthread_cond_signal(&c);
  pthread_mutex_unlock(&m);
  sem_post(&s);
  return (void *)(long)(k * 2);
}
int main(void) {
  pthread_t t[4];
  int k[4];
  void *res;
  sem_init(&s, 0, 0);
  pthread_barrier_init(&b, NULL, 4);
  pthread_key_create(&key, ended);
  for (int i = 0; i < 4; i++) {
    k[i] = i + 1;
    if (pthread_create(&t[i], NULL, work, &k[i]))
      return 1;
  }
  pthread_mutex_lock(&m);
  while (ready < 4)
    pthread_cond_wait(&c, &m);
  pthread_mutex_unlock(&m);
  for (int i = 0; i < 4; i++)
    sem_wait(&s);
  long sum = 0;
  for (int i = 0; i < 4; i++) {
    pthread_join(t[i], &res);
    sum += (long)res;
  }
  printf("%d %d %ld %d %d\n", total, ready, sum, ends, pthread_equal(pthread_self(), pthread_self()) != 0);
  pthread_mutexattr_t at;
  pthread_mutexattr_init(&at);
  pthread_mutexattr_settype(&at, PTHREAD_MUTEX_ERRORCHECK);
  pthread_mutex_t e;
  pthread_mutex_init(&e, &at);
  pthread_mutex_lock(&e);
  printf("%d %d\n", pthread_mutex_lock(&e) == EDEADLK, pthread_mutex_trylock(&e) == EBUSY);
  pthread_mutex_unlock(&e);
  printf("%d\n", pthread_mutex_unlock(&e) == EPERM);
  return 0;
}
