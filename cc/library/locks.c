// Mutexes, condition variables, reader-writer locks, barriers, semaphores and `pthread_once`. A thread that waits goes on asking, by
// `sched_yield`, so the schedule must come round to the others: `--schedule 00010203`. Who waits for what never comes runs until no step is
// left, not into a `trap deadlock`. Since the clock stands still, a wait with a time limit ends after a thousand turns.
#define _GNU_SOURCE
#include "threads.h"

#include <errno.h>
#include <sched.h>
#include <semaphore.h>

enum { TURNS = 1000 };

// ---- mutexes: who has one, how often

weak int pthread_mutexattr_init(pthread_mutexattr_t *attributes) {
  *attributes = (pthread_mutexattr_t){.__align = PTHREAD_MUTEX_DEFAULT};
  return 0;
}
weak int pthread_mutexattr_destroy(pthread_mutexattr_t *attributes) { return 0; }
weak int pthread_mutexattr_settype(pthread_mutexattr_t *attributes, int kind) {
  attributes->__align = kind;
  return 0;
}
weak int pthread_mutexattr_gettype(const pthread_mutexattr_t *attributes, int *kind) {
  *kind = attributes->__align;
  return 0;
}

weak int pthread_mutex_init(pthread_mutex_t *mutex, const pthread_mutexattr_t *attributes) {
  *mutex = (pthread_mutex_t)PTHREAD_MUTEX_INITIALIZER;
  if (attributes)
    mutex->__data.__kind = attributes->__align;
  return 0;
}
weak int pthread_mutex_destroy(pthread_mutex_t *mutex) { return mutex->__data.__lock ? EBUSY : 0; }

weak int pthread_mutex_trylock(pthread_mutex_t *mutex) {
  if (mutex->__data.__lock && (mutex->__data.__kind != PTHREAD_MUTEX_RECURSIVE || mutex->__data.__owner != cc_current->number))
    return EBUSY;
  mutex->__data.__lock = 1;
  mutex->__data.__owner = cc_current->number;
  mutex->__data.__count++;
  return 0;
}
weak int pthread_mutex_lock(pthread_mutex_t *mutex) {
  while (pthread_mutex_trylock(mutex)) {
    if (mutex->__data.__kind == PTHREAD_MUTEX_ERRORCHECK && mutex->__data.__owner == cc_current->number)
      return EDEADLK;
    sched_yield();
  }
  return 0;
}
weak int pthread_mutex_timedlock(pthread_mutex_t *restrict mutex, const struct timespec *restrict until) {
  for (int turn = 0; pthread_mutex_trylock(mutex); turn++) {
    if (turn == TURNS)
      return ETIMEDOUT;
    sched_yield();
  }
  return 0;
}
weak int pthread_mutex_unlock(pthread_mutex_t *mutex) {
  if (mutex->__data.__kind != PTHREAD_MUTEX_NORMAL && (!mutex->__data.__lock || mutex->__data.__owner != cc_current->number))
    return EPERM;
  if (mutex->__data.__count > 0 && --mutex->__data.__count > 0)
    return 0;
  mutex->__data.__lock = 0;
  mutex->__data.__owner = 0;
  return 0;
}

weak int pthread_spin_init(pthread_spinlock_t *lock, int shared) {
  *lock = 0;
  return 0;
}
weak int pthread_spin_destroy(pthread_spinlock_t *lock) { return 0; }
weak int pthread_spin_trylock(pthread_spinlock_t *lock) {
  if (*lock)
    return EBUSY;
  *lock = 1;
  return 0;
}
weak int pthread_spin_lock(pthread_spinlock_t *lock) {
  while (pthread_spin_trylock(lock))
    sched_yield();
  return 0;
}
weak int pthread_spin_unlock(pthread_spinlock_t *lock) {
  *lock = 0;
  return 0;
}

// ---- condition variables: how often one was signalled. A signal wakes all, as POSIX allows

static unsigned *signals(pthread_cond_t *condition) { return (unsigned *)condition; }

weak int pthread_condattr_init(pthread_condattr_t *attributes) {
  *attributes = (pthread_condattr_t){0};
  return 0;
}
weak int pthread_condattr_destroy(pthread_condattr_t *attributes) { return 0; }
weak int pthread_condattr_setclock(pthread_condattr_t *attributes, clockid_t clock) { return 0; }

weak int pthread_cond_init(pthread_cond_t *condition, const pthread_condattr_t *attributes) {
  *condition = (pthread_cond_t)PTHREAD_COND_INITIALIZER;
  return 0;
}
weak int pthread_cond_destroy(pthread_cond_t *condition) { return 0; }

static int wait_for_signal(pthread_cond_t *condition, pthread_mutex_t *mutex, int most) {
  unsigned before = *signals(condition);
  pthread_mutex_unlock(mutex);
  int turn = 0;
  for (; *signals(condition) == before && turn != most; turn += most > 0)
    sched_yield();
  pthread_mutex_lock(mutex);
  return turn == most && *signals(condition) == before ? ETIMEDOUT : 0;
}
weak int pthread_cond_wait(pthread_cond_t *condition, pthread_mutex_t *mutex) { return wait_for_signal(condition, mutex, -1); }
weak int pthread_cond_timedwait(pthread_cond_t *restrict condition, pthread_mutex_t *restrict mutex,
                                const struct timespec *restrict until) {
  return wait_for_signal(condition, mutex, TURNS);
}
weak int pthread_cond_broadcast(pthread_cond_t *condition) {
  ++*signals(condition);
  return 0;
}
weak int pthread_cond_signal(pthread_cond_t *condition) { return pthread_cond_broadcast(condition); }

// ---- reader-writer locks: how many read, or who writes

weak int pthread_rwlock_init(pthread_rwlock_t *lock, const pthread_rwlockattr_t *attributes) {
  *lock = (pthread_rwlock_t)PTHREAD_RWLOCK_INITIALIZER;
  return 0;
}
weak int pthread_rwlock_destroy(pthread_rwlock_t *lock) { return 0; }
weak int pthread_rwlock_tryrdlock(pthread_rwlock_t *lock) {
  if (lock->__data.__cur_writer)
    return EBUSY;
  lock->__data.__readers++;
  return 0;
}
weak int pthread_rwlock_trywrlock(pthread_rwlock_t *lock) {
  if (lock->__data.__cur_writer || lock->__data.__readers)
    return EBUSY;
  lock->__data.__cur_writer = 1;
  return 0;
}
weak int pthread_rwlock_rdlock(pthread_rwlock_t *lock) {
  while (pthread_rwlock_tryrdlock(lock))
    sched_yield();
  return 0;
}
weak int pthread_rwlock_wrlock(pthread_rwlock_t *lock) {
  while (pthread_rwlock_trywrlock(lock))
    sched_yield();
  return 0;
}
weak int pthread_rwlock_unlock(pthread_rwlock_t *lock) {
  if (lock->__data.__cur_writer)
    lock->__data.__cur_writer = 0;
  else
    lock->__data.__readers--;
  return 0;
}

// ---- once

enum { NOT_YET, RUNNING, DONE };

weak int pthread_once(pthread_once_t *once, void (*routine)(void)) {
  if (*once == NOT_YET) {
    *once = RUNNING;
    routine();
    *once = DONE;
  }
  while (*once != DONE)
    sched_yield();
  return 0;
}

// ---- barriers

struct barrier {
  unsigned count, waiting, round;
};

weak int pthread_barrier_init(pthread_barrier_t *restrict barrier, const pthread_barrierattr_t *restrict attributes, unsigned count) {
  if (count == 0)
    return EINVAL;
  *(struct barrier *)barrier = (struct barrier){.count = count};
  return 0;
}
weak int pthread_barrier_destroy(pthread_barrier_t *barrier) { return 0; }
weak int pthread_barrier_wait(pthread_barrier_t *given) {
  struct barrier *barrier = (struct barrier *)given;
  unsigned round = barrier->round;
  if (++barrier->waiting == barrier->count) {
    barrier->waiting = 0;
    barrier->round++;
    return PTHREAD_BARRIER_SERIAL_THREAD;
  }
  while (barrier->round == round)
    sched_yield();
  return 0;
}

// ---- semaphores: how many may still pass

static unsigned *passes(sem_t *semaphore) { return (unsigned *)semaphore; }

weak int sem_init(sem_t *semaphore, int shared, unsigned count) {
  *passes(semaphore) = count;
  return 0;
}
weak int sem_destroy(sem_t *semaphore) { return 0; }
weak int sem_trywait(sem_t *semaphore) {
  if (*passes(semaphore) == 0) {
    errno = EAGAIN;
    return -1;
  }
  --*passes(semaphore);
  return 0;
}
weak int sem_wait(sem_t *semaphore) {
  while (*passes(semaphore) == 0)
    sched_yield();
  --*passes(semaphore);
  return 0;
}
weak int sem_timedwait(sem_t *restrict semaphore, const struct timespec *restrict until) {
  for (int turn = 0; *passes(semaphore) == 0; turn++) {
    if (turn == TURNS) {
      errno = ETIMEDOUT;
      return -1;
    }
    sched_yield();
  }
  --*passes(semaphore);
  return 0;
}
weak int sem_post(sem_t *semaphore) {
  ++*passes(semaphore);
  return 0;
}
weak int sem_getvalue(sem_t *semaphore, int *count) {
  *count = *passes(semaphore);
  return 0;
}
