// Handlers of the end, errors' texts, messages, signals, an empty world.
#define _GNU_SOURCE
#include <err.h>
#include <errno.h>
#include <locale.h>
#include <signal.h>
#include <stdio.h>
#include <stdlib.h>
#include <string.h>
#include <sys/stat.h>
#include <unistd.h>

static void first(void) { puts("first"); }
static void second(void) {
  puts("second");
  atexit(first);
}
static void with_status(int status, void *text) { printf("%d %s\n", status, (char *)text); } // P1: value "printf"
static void on_signal(int number) { printf("signal %d\n", number); }

int main(void) {
  atexit(first);
  on_exit(with_status, "text");
  atexit(second);
  for (int error = -1; error < 140; error++)
    printf("%d %s\n", error, strerror(error));
  char text[40];
  printf("%s %s\n", strerror_r(EINVAL, text, sizeof text), strsignal(SIGSEGV));
  for (int number = 1; number < 32; number++)
    printf("%s\n", strsignal(number));
  errno = ENOENT;
  perror("perror");
  warn("%d", 5);
  warnx("%s", "warned");
  printf("%d\n", signal(SIGUSR1, on_signal) == SIG_DFL);
  raise(SIGUSR1);
  printf("%d\n", signal(SIGUSR1, SIG_IGN) == on_signal);
  printf("%d\n", raise(SIGUSR1));
  struct sigaction action = {.sa_handler = on_signal}, old;
  sigaction(SIGINT, &action, &old);
  printf("%d\n", old.sa_handler == SIG_DFL);
  raise(SIGINT);
  printf("%d %d\n", signal(SIGKILL, SIG_IGN) == SIG_ERR, errno == EINVAL);
  sigset_t set;
  sigemptyset(&set);
  sigaddset(&set, SIGINT);
  printf("%d %d\n", sigismember(&set, SIGINT), sigismember(&set, SIGTERM));
  printf("%d %s\n", getenv("MSAN_CC_NONE") == NULL, setlocale(LC_ALL, NULL));
  struct stat stat_of;
  printf("%d %d\n", stat("/nonexistent", &stat_of), errno == ENOENT);
  printf("%d %d\n", remove("/nonexistent") == -1, access("/nonexistent", R_OK));
#ifdef P1
  int status;   // P1 root
  exit(status); // handed to a handler
#endif
#ifdef P2
  char *name = malloc(4); // P2 root
  name[0] = 'a';
  perror(name); // P2: string in format.c
#endif
#ifdef P3
  char variable[8]; // P3 root
  variable[0] = 'A';
  printf("%d\n", getenv(variable) == NULL); // P3: string in library.h
#endif
  exit(3);
}
