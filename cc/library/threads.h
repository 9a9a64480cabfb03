// Who runs. Threads change turns at msan's three calls alone, so each of these, through `cc_`, keeps `cc_current` right; and a test and the
// store after it are one step.
#ifndef CC_THREADS_H
#define CC_THREADS_H

#include "library.h"

#include <pthread.h>

enum { KEYS = 32 };

struct thread {
  pthread_t id; // msan's
  int number;   // from 1, in the order of their creation; 1 is main
  void *(*routine)(void *);
  void *argument;
  void *values[KEYS]; // of `pthread_setspecific`
  struct thread *before;
};

// The thread that runs, and the last one made.
extern struct thread *cc_current, *cc_last;

int cc_pthread_create(pthread_t *thread, const pthread_attr_t *attributes, void *(*routine)(void *), void *argument);
int cc_pthread_join(pthread_t thread, void **result);
int cc_sched_yield(void);

// Calls the destructors of the values that the thread that runs has.
void cc_end_values(void);

#endif
