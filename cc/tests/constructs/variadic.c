// Variadic functions of one's own: each type of argument, many of them, lists handed on and copied, through a pointer.
#include <stdarg.h>
#include <stdio.h>

struct big {
  long a, b, c;
};
struct small {
  int x, y, z;
};
struct byte {
  char c;
};

static int sum(int count, ...) {
  va_list list;
  va_start(list, count);
  int result = 0;
  while (count-- > 0)
    result += va_arg(list, int);
  va_end(list);
  return result;
}
static long listed(const char *kinds, va_list list) {
  long n = 0;
  for (; *kinds; kinds++)
    switch (*kinds) {
    case 'i': n = n * 3 + va_arg(list, int); break;
    case 'l': n = n * 3 + va_arg(list, long); break;
    case 'p': n = n * 3 + *va_arg(list, int *); break;
    case 'u': n = n * 3 + va_arg(list, unsigned); break;
    case 'B': {
      struct big b = va_arg(list, struct big);
      n = n * 3 + b.a + 10 * b.b + 100 * b.c;
      break;
    }
    case 'S': {
      struct small s = va_arg(list, struct small);
      n = n * 3 + s.x + 10 * s.y + 100 * s.z;
      break;
    }
    case 'C': n = n * 3 + va_arg(list, struct byte).c; break;
    }
  return n;
}
static long all(const char *kinds, ...) {
  va_list list;
  va_start(list, kinds);
  long n = listed(kinds, list);
  va_end(list);
  return n;
}
static long twice(const char *kinds, ...) {
  va_list list, again;
  va_start(list, kinds);
  va_copy(again, list);
  long n = listed(kinds, list);
  n += 1000000 * listed(kinds, again);
  va_end(again);
  va_end(list);
  return n;
}
static long many(int a, long b, int c, long d, int e, long f, int g, long h, ...) {
  va_list list;
  va_start(list, h);
  long n = a + b + c + d + e + f + g + h;
  n = n * 10 + va_arg(list, int);
  n = n * 10 + va_arg(list, long);
  va_end(list);
  return n;
}

int main(void) {
  int five = 5, unset = 7;
#ifdef P1
  int never; // P1 root
  unset = never;
#endif
  struct big b = {1, 2, 3};
  struct small s = {4, 5, 6};
  struct byte c = {'c'};
  long (*pointer)(const char *, ...) = all;
  printf("%d %d %d\n", sum(0), sum(1, 10), sum(9, 1, 2, 3, 4, 5, 6, 7, 8, 9));
  printf("%ld\n", all("ilpuBSC", -1, 1L << 40, &five, 4000000000u, b, s, c));
  printf("%ld\n", all("BBSSCCiiiiii", b, b, s, s, c, c, 1, 2, 3, 4, 5, 6));
  printf("%ld %ld\n", twice("iil", 1, 2, 3L), twice("SB", s, b));
  printf("%ld\n", many(1, 2, 3, 4, 5, 6, 7, 8, 9, 10L));
  printf("%ld", pointer("il", 7, 8L));
  pointer = twice;
  printf(" %ld\n", pointer("B", b));
  for (int k = 0; k < 4; k++)
    printf("%d%c", sum(k, 100, 20, 3), k < 3 ? ' ' : '\n');
  if (sum(3, 1, unset, 3) == 11) // P1: branch "sum"
    puts("eleven");
#ifdef P2
  if (sum(3, 1, 2) > 3) // P2: branch "sum" // P2 root
    puts("too many");
#endif
#ifdef P3
  struct small part; // P3 root
  part.x = part.z = 1;
  if (all("SS", s, part) > 0) // P3: branch "all"
    puts("part");
#endif
  return 0;
}
