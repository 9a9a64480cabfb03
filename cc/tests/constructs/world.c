// What programs ask of the world: an environment without variables, errors by name, signals that never come.
#include <errno.h>
#include <signal.h>
#include <stdio.h>
#include <stdlib.h>
#include <string.h>
#include <time.h>

static void stop(int signal) { exit(signal); }

int main(void) {
  printf("%d\n", getenv("A_VARIABLE_THAT_NOBODY_SETS") == NULL);
  puts(strerror(ENOENT));
  errno = EINVAL;
  perror("told");
  printf("%d %d\n", signal(SIGINT, stop) != SIG_ERR, (int)(time(NULL) < 0));
  char *end;
  printf("%ld %s %d\n", strtol("12abc", &end, 10), end, atoi("-77"));
  clock_t before = clock();
  printf("%d\n", clock() >= before);
  return 0;
}
