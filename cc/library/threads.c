// Threads beyond msan's `pthread_create`, `pthread_join` and `sched_yield`: routines that are values, who runs, values of a thread's own.
// `msan-cc` sends the three calls to those of the same name with `cc_` where a program needs to know who runs.
#define _GNU_SOURCE
#include "threads.h"

#include <errno.h>
#include <sched.h>
#include <stdlib.h>

static struct thread first = {.number = 1};
struct thread *cc_current = &first, *cc_last = &first;

static void *begin(void *given) {
  struct thread *thread = cc_current = given;
  void *result = thread->routine(thread->argument);
  cc_end_values();
  return result;
}

int cc_pthread_create(pthread_t *thread, const pthread_attr_t *attributes, void *(*routine)(void *), void *argument) {
  struct thread *running = cc_current, *made = calloc(1, sizeof *made);
  if (!made)
    return EAGAIN;
  made->routine = routine;
  made->argument = argument;
  int error = pthread_create(&made->id, attributes, begin, made);
  cc_current = running;
  if (error)
    return error;
  made->number = cc_last->number + 1;
  made->before = cc_last;
  cc_last = made;
  *thread = made->id;
  return 0;
}

int cc_pthread_join(pthread_t thread, void **result) {
  struct thread *running = cc_current;
  int error = pthread_join(thread, result);
  cc_current = running;
  return error;
}

int cc_sched_yield(void) {
  struct thread *running = cc_current;
  int error = sched_yield();
  cc_current = running;
  return error;
}

weak pthread_t pthread_self(void) { return cc_current->id; }
weak int pthread_equal(pthread_t one, pthread_t other) { return one == other; }
weak int pthread_detach(pthread_t thread) { return 0; }
weak int pthread_setname_np(pthread_t thread, const char *name) { return 0; }
weak int pthread_setcancelstate(int state, int *old) { return 0; }
weak int pthread_cancel(pthread_t thread) { return ESRCH; }

// In a thread's routine `msan-cc` makes a return of it. Here it is main's, which waits for all others, or one from within a call, which
// can't be left.
weak void pthread_exit(void *value) {
  if (cc_current != &first) {
    printf("msan-cc: pthread_exit outside of the thread's routine is missing\n");
    abort();
  }
  for (struct thread *thread = cc_last; thread != &first; thread = thread->before)
    pthread_join(thread->id, NULL);
  exit(0);
}

// ---- attributes, of which none matters here

weak int pthread_attr_init(pthread_attr_t *attributes) {
  *attributes = (pthread_attr_t){0};
  return 0;
}
weak int pthread_attr_destroy(pthread_attr_t *attributes) { return 0; }
weak int pthread_attr_setdetachstate(pthread_attr_t *attributes, int state) { return 0; }
weak int pthread_attr_setstacksize(pthread_attr_t *attributes, size_t size) { return 0; }
weak int pthread_attr_setscope(pthread_attr_t *attributes, int scope) { return 0; }

// ---- values of a thread's own

struct key {
  int is_used;
  void (*destructor)(void *);
};
static struct key keys[KEYS];

weak int pthread_key_create(pthread_key_t *key, void (*destructor)(void *)) {
  for (unsigned k = 0; k < KEYS; k++)
    if (!keys[k].is_used) {
      keys[k] = (struct key){1, destructor};
      for (struct thread *thread = cc_last; thread; thread = thread->before)
        thread->values[k] = NULL;
      *key = k;
      return 0;
    }
  return EAGAIN;
}
static int is_key(pthread_key_t key) { return key < KEYS && keys[key].is_used; }

weak int pthread_key_delete(pthread_key_t key) {
  if (!is_key(key))
    return EINVAL;
  keys[key].is_used = 0;
  return 0;
}
weak int pthread_setspecific(pthread_key_t key, const void *value) {
  if (!is_key(key))
    return EINVAL;
  cc_current->values[key] = (void *)value;
  return 0;
}
weak void *pthread_getspecific(pthread_key_t key) { return is_key(key) ? cc_current->values[key] : NULL; }

static int end_value(int k) {
  void *value = cc_current->values[k];
  if (!keys[k].is_used || !keys[k].destructor || !value)
    return 0;
  cc_current->values[k] = NULL;
  keys[k].destructor(value);
  return 1;
}

// A destructor may set values again, up to four times.
void cc_end_values(void) {
  int is_left = 1;
  for (int round = 0; is_left && round < 4; round++) {
    is_left = 0;
    for (int k = 0; k < KEYS; k++)
      is_left |= end_value(k);
  }
}
