// A variable of each thread, in a program with one.
#include <stdio.h>

static _Thread_local int local = 5;
__thread char text[4] = "abc";
static int *where(void) { return &local; }

int main(void) {
  local++;
  *where() += 2;
  text[1] = 'B';
  printf("%d %s\n", local, text);
  return 0;
}
