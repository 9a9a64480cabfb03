// Signals: none comes by itself. `raise` calls a handler at once, or ends the run by a trap, as a signal ends a process.
#define _GNU_SOURCE
#include "library.h"

#include <errno.h>
#include <signal.h>
#include <stdlib.h>

typedef void handler(int);
static handler *handlers[_NSIG]; // null is SIG_DFL
static int failed(int error) {
  errno = error;
  return -1;
}
static int is_signal(int signal) {
  cc_check_argument(signal);
  return signal > 0 && signal < _NSIG;
}

// SIG_DFL, SIG_IGN and SIG_ERR are numbers, compared as such.
weak handler *signal(int number, handler *handler) {
  if (!is_signal(number) || number == SIGKILL || number == SIGSTOP) {
    errno = EINVAL;
    return SIG_ERR;
  }
  __sighandler_t old = handlers[number];
  handlers[number] = handler;
  return old;
}
also(bsd_signal, signal);
also(ssignal, signal);
weak handler *__sysv_signal(int number, handler *handler) { return signal(number, handler); }

weak int sigaction(int number, const struct sigaction *restrict action, struct sigaction *restrict old) {
  if (!is_signal(number))
    return failed(EINVAL);
  if (old)
    *old = (struct sigaction){.sa_handler = handlers[number]};
  if (action)
    handlers[number] = action->sa_handler;
  return 0;
}

static int is_ignored(int number) { return number == SIGCHLD || number == SIGURG || number == SIGWINCH || number == SIGCONT; }

weak int raise(int number) {
  if (!is_signal(number))
    return failed(EINVAL);
  if (handlers[number] == SIG_IGN)
    return 0;
  if (handlers[number] != SIG_DFL)
    handlers[number](number);
  else if (!is_ignored(number))
    abort();
  return 0;
}

weak int sigemptyset(sigset_t *set) {
  *set = (sigset_t){0};
  return 0;
}
weak int sigfillset(sigset_t *set) {
  for (unsigned k = 0; k < sizeof set->__val / sizeof *set->__val; k++)
    set->__val[k] = -1ul;
  return 0;
}
static unsigned long *word(const sigset_t *set, int number) { return (unsigned long *)&set->__val[(number - 1) / 64]; }
static unsigned long bit(int number) { return 1ul << (number - 1) % 64; }
weak int sigaddset(sigset_t *set, int number) {
  if (!is_signal(number))
    return failed(EINVAL);
  *word(set, number) |= bit(number);
  return 0;
}
weak int sigdelset(sigset_t *set, int number) {
  if (!is_signal(number))
    return failed(EINVAL);
  *word(set, number) &= ~bit(number);
  return 0;
}
weak int sigismember(const sigset_t *set, int number) {
  return is_signal(number) ? (*word(set, number) & bit(number)) != 0 : failed(EINVAL);
}
weak int sigprocmask(int how, const sigset_t *restrict set, sigset_t *restrict old) {
  if (old)
    sigemptyset(old);
  return 0;
}
weak int pthread_sigmask(int how, const sigset_t *restrict set, sigset_t *restrict old) { return sigprocmask(how, set, old); }
