// Overflow of mixed signs at 64 bits, which clang does at 65.
#include <limits.h>
#include <stdio.h>

static const long numbers[] = {0, 1, -1, 2, -2, 3, 1L << 31, -(1L << 31), 1L << 32, 1L << 62, LONG_MAX, LONG_MIN, LONG_MIN + 1, 3037000500};

int main(void) {
  unsigned long h = 1;
  for (unsigned i = 0; i < sizeof numbers / sizeof *numbers; i++)
    for (unsigned j = 0; j < sizeof numbers / sizeof *numbers; j++) {
      long a = numbers[i], r;
      unsigned long b = numbers[j], u;
      int small;
      h = h * 31 + __builtin_add_overflow(a, b, &r);
      h = h * 31 + r;
      h = h * 31 + __builtin_sub_overflow(a, b, &u);
      h = h * 31 + u;
      h = h * 31 + __builtin_add_overflow(b, a, &small);
      h = h * 31 + small;
    }
  printf("%lx\n", h);
#ifdef P1
  long unset; // P1 root
  unsigned long v;
  if (__builtin_add_overflow(unset, 7UL, &v)) // P1: branch "__builtin_add_overflow"
    puts("over");
#endif
  return 0;
}
