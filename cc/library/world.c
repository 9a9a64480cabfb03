// A world that stands still: no environment, no other process, no signal that comes by itself, a clock at 0.
#define _GNU_SOURCE
#include "library.h"

#include <errno.h>
#include <locale.h>
#include <sched.h>
#include <signal.h>
#include <stdlib.h>
#include <string.h>
#include <sys/resource.h>
#include <sys/time.h>
#include <sys/times.h>
#include <sys/wait.h>
#include <time.h>
#include <unistd.h>

static int failed(int error) {
  errno = error;
  return -1;
}

// ---- the environment

weak char **environ = (char *[]){NULL};
also(__environ, environ);
// A name is read, as elsewhere.
weak char *getenv(const char *name) {
  cc_check_text(name);
  return NULL;
}
weak char *secure_getenv(const char *name) { return getenv(name); }
weak int setenv(const char *name, const char *value, int overwrite) {
  cc_check_text(name);
  cc_check_text(value);
  return failed(ENOMEM);
}
weak int putenv(char *text) {
  cc_check_text(text);
  return failed(ENOMEM);
}
weak int unsetenv(const char *name) {
  cc_check_text(name);
  return 0;
}
weak int clearenv(void) { return 0; }

weak char *setlocale(int category, const char *name) {
  return !name || !*name || strcmp(name, "C") == 0 || strcmp(name, "POSIX") == 0 ? "C" : NULL;
}
weak struct lconv *localeconv(void) {
  static char none[] = "", point[] = ".", most = 127;
  static struct lconv c;
  c = (struct lconv){point, none, none, none, none, none, none, none, none, none, most, most,
                     most,  most, most, most, most, most, most, most, most, most, most, most};
  return &c;
}

// ---- processes

weak pid_t getpid(void) { return 1; }
weak pid_t getppid(void) { return 0; }
weak uid_t getuid(void) { return 0; }
weak uid_t geteuid(void) { return 0; }
weak gid_t getgid(void) { return 0; }
weak gid_t getegid(void) { return 0; }
weak pid_t fork(void) { return failed(ENOSYS); }
weak pid_t wait(int *status) { return failed(ECHILD); }
weak pid_t waitpid(pid_t process, int *status, int options) { return failed(ECHILD); }
weak int pipe(int *to) { return failed(ENOSYS); }
weak int kill(pid_t process, int signal) { return process == getpid() && signal == 0 ? 0 : failed(ESRCH); }
weak int system(const char *command) {
  if (!command)
    return 0;
  cc_check_text(command);
  return failed(ENOSYS);
}
weak char *getlogin(void) { return NULL; }
weak int getrusage(int who, struct rusage *to) {
  *to = (struct rusage){0};
  return 0;
}
weak clock_t times(struct tms *to) {
  *to = (struct tms){0};
  return 0;
}
weak int getpagesize(void) { return 4096; }
weak long sysconf(int name) {
  return name == _SC_PAGESIZE ? 4096 : name == _SC_NPROCESSORS_ONLN || name == _SC_NPROCESSORS_CONF ? 1 : failed(EINVAL);
}
weak int gethostname(char *name, size_t room) {
  if (room < sizeof "localhost")
    return failed(ENAMETOOLONG);
  strcpy(name, "localhost");
  return 0;
}

// ---- the clock

weak time_t time(time_t *to) {
  if (to)
    *to = 0;
  return 0;
}
weak clock_t clock(void) { return 0; }
weak int gettimeofday(struct timeval *restrict to, void *restrict zone) {
  *to = (struct timeval){0};
  return 0;
}
weak int clock_gettime(clockid_t clock, struct timespec *to) {
  *to = (struct timespec){0};
  return 0;
}
weak int clock_getres(clockid_t clock, struct timespec *to) {
  if (to)
    *to = (struct timespec){.tv_nsec = 1};
  return 0;
}
weak int timespec_get(struct timespec *to, int base) {
  *to = (struct timespec){0};
  return base;
}

// Who sleeps lets other threads run.
weak unsigned sleep(unsigned seconds) {
  sched_yield();
  return 0;
}
weak int usleep(useconds_t microseconds) {
  sched_yield();
  return 0;
}
weak int nanosleep(const struct timespec *given, struct timespec *left) {
  if (given->tv_nsec < 0 || given->tv_nsec >= 1000000000 || given->tv_sec < 0)
    return failed(EINVAL);
  sched_yield();
  return 0;
}
weak unsigned alarm(unsigned seconds) { return 0; }
