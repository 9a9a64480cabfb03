// main with an environment, which is empty.
#include <stdio.h>

static int count(char **list) {
  int n = 0;
  while (list[n])
    n++;
  return n;
}

int main(int argc, char **argv, char **environment) {
  printf("%d %d\n", argc, count(argv));
  if (count(environment) < 0)
    puts("less than none");
  return 0;
}
