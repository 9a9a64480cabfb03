// Unset bits through each lowering: a program without a use, though much of what it copies is unset.
#include <stdarg.h>
#include <stdio.h>
#include <stdlib.h>

struct pair {
  long a, b;
};
struct big {
  long v[5];
};
static struct pair half(long a) {
  struct pair p;
  p.a = a;
  return p;
}
static struct pair (*volatile maker)(long) = half;
static long first(struct big b, ...) {
  va_list list;
  va_start(list, b);
  struct pair p = va_arg(list, struct pair);
  long n = va_arg(list, long);
  va_end(list);
  return b.v[0] + p.a + (n & 0);
}
static struct pair thrice(struct pair p) {
  struct pair q = half(p.a);
  q = p.a ? q : p;
  return q;
}

int main(void) {
  struct pair p = maker(3), q = thrice(p);
  struct big b;
  b.v[0] = 1;
  long unset;
  int over, low;
  unsigned char k;
  struct pair *volatile m = malloc(sizeof *m);
  m->a = 5;
  long n = first(b, p, unset);
  struct big c = b;
  c.v[1] = n;
  volatile long v = unset;
  long w = v;
  int *volatile at = &over;
  __atomic_store_n(&k, (unsigned char)w, __ATOMIC_SEQ_CST);
  __atomic_fetch_or(&k, 0xf0, __ATOMIC_SEQ_CST);
  if (k & 0x80)
    puts("set");
  if (p.a + q.a + n + c.v[1] + m->a == 19)
    puts("sum");
  if (__builtin_add_overflow(3, 4, at))
    puts("over");
  __builtin_mul_overflow((int)unset & 0, 5, &low);
  printf("%d\n", low);
  long row[n];
  row[0] = 1;
  if (row[0] == 1)
    puts("row");
#ifdef P1
  if (p.b) // P1: branch "p.b"
    puts("b");
#endif
#ifdef P2
  if (q.b) // P2: branch "q.b"
    puts("b");
#endif
#ifdef P3
  if (c.v[2]) // P3: branch "c.v[2]"
    puts("c");
#endif
#ifdef P4
  if (k & 1) // P4: branch "k & 1"
    puts("k");
#endif
#ifdef P5
  if (w) // P5: branch "w)"
    puts("w");
#endif
#ifdef P6
  if (row[2]) // P6: branch "row[2]"
    puts("row");
#endif
#ifdef P7
  if (m->b) // P7: branch "m->b"
    puts("m");
#endif
#ifdef P8
  if (thrice(half(0)).b) // P8: branch "thrice"
    puts("thrice");
#endif
#ifdef P9
  if (first(c, q, unset) != v) // P9: branch "first(c"
    puts("first");
#endif
  return 0;
}
