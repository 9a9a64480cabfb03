// A variadic argument past the last one that was given, in each round of a loop after one in which there were more.
#include <stdarg.h>
#include <stdio.h>

static int take(int count, ...) {
  va_list list;
  va_start(list, count);
  int last = 0;
  for (int k = 0; k < count; k++)
    last = va_arg(list, int);
  va_end(list);
  return last;
}

int main(void) {
  printf("%d\n", take(4, 1, 2, 3, 4));
  printf("%d\n", take(2, 5, 6));
#ifdef P1
  if (take(3, 7, 8) == 3) // P1: branch "take" // P1 root
    puts("kept");
#endif
#ifdef P2
  if (take(1) == 0) // P2: branch "take" // P2 root
    puts("zero");
#endif
  return 0;
}
