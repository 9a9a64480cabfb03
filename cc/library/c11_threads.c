// <threads.h> of C11, over the functions of <pthread.h>.
#define _GNU_SOURCE
#include "threads.h"

#include <errno.h>
#include <sched.h>
#include <stdint.h>
#include <stdlib.h>
#include <threads.h>

static int as_thrd(int error) {
  return error == 0           ? thrd_success
         : error == EBUSY     ? thrd_busy
         : error == ETIMEDOUT ? thrd_timedout
         : error == ENOMEM    ? thrd_nomem
                              : thrd_error;
}

struct start {
  thrd_start_t routine;
  void *argument;
};

static void *begin(void *given) {
  struct start start = *(struct start *)given;
  free(given);
  return (void *)(intptr_t)start.routine(start.argument);
}

weak int thrd_create(thrd_t *thread, thrd_start_t routine, void *argument) {
  struct start *start = malloc(sizeof *start);
  if (!start)
    return thrd_nomem;
  *start = (struct start){routine, argument};
  return as_thrd(pthread_create(thread, NULL, begin, start));
}
weak int thrd_join(thrd_t thread, int *result) {
  void *word;
  int error = pthread_join(thread, &word);
  if (error == 0 && result)
    *result = (int)(intptr_t)word;
  return as_thrd(error);
}
weak thrd_t thrd_current(void) { return pthread_self(); }
weak int thrd_equal(thrd_t one, thrd_t other) { return one == other; }
weak int thrd_detach(thrd_t thread) { return thrd_success; }
weak void thrd_yield(void) { sched_yield(); }
weak int thrd_sleep(const struct timespec *time, struct timespec *left) {
  sched_yield();
  return 0;
}

weak int mtx_init(mtx_t *mutex, int kind) {
  pthread_mutexattr_t attributes;
  pthread_mutexattr_init(&attributes);
  pthread_mutexattr_settype(&attributes, kind & mtx_recursive ? PTHREAD_MUTEX_RECURSIVE : PTHREAD_MUTEX_NORMAL);
  return as_thrd(pthread_mutex_init((pthread_mutex_t *)mutex, &attributes));
}
weak void mtx_destroy(mtx_t *mutex) {}
weak int mtx_lock(mtx_t *mutex) { return as_thrd(pthread_mutex_lock((pthread_mutex_t *)mutex)); }
weak int mtx_trylock(mtx_t *mutex) { return as_thrd(pthread_mutex_trylock((pthread_mutex_t *)mutex)); }
weak int mtx_timedlock(mtx_t *restrict mutex, const struct timespec *restrict until) {
  return as_thrd(pthread_mutex_timedlock((pthread_mutex_t *)mutex, until));
}
weak int mtx_unlock(mtx_t *mutex) { return as_thrd(pthread_mutex_unlock((pthread_mutex_t *)mutex)); }

weak int cnd_init(cnd_t *condition) { return as_thrd(pthread_cond_init((pthread_cond_t *)condition, NULL)); }
weak void cnd_destroy(cnd_t *condition) {}
weak int cnd_signal(cnd_t *condition) { return as_thrd(pthread_cond_signal((pthread_cond_t *)condition)); }
weak int cnd_broadcast(cnd_t *condition) { return as_thrd(pthread_cond_broadcast((pthread_cond_t *)condition)); }
weak int cnd_wait(cnd_t *condition, mtx_t *mutex) {
  return as_thrd(pthread_cond_wait((pthread_cond_t *)condition, (pthread_mutex_t *)mutex));
}
weak int cnd_timedwait(cnd_t *restrict condition, mtx_t *restrict mutex, const struct timespec *restrict until) {
  return as_thrd(pthread_cond_timedwait((pthread_cond_t *)condition, (pthread_mutex_t *)mutex, until));
}

weak void call_once(once_flag *once, void (*routine)(void)) { pthread_once((pthread_once_t *)once, routine); }

weak int tss_create(tss_t *key, tss_dtor_t destructor) { return as_thrd(pthread_key_create(key, destructor)); }
weak void tss_delete(tss_t key) { pthread_key_delete(key); }
weak int tss_set(tss_t key, void *value) { return as_thrd(pthread_setspecific(key, value)); }
weak void *tss_get(tss_t key) { return pthread_getspecific(key); }
