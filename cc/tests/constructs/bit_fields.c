// Bit-fields: signed and unsigned, across the border of a word, packed, and so wide that clang's accesses have more than 64 bits.
#include <stdio.h>
#include <stdlib.h>
#include <string.h>

struct flags {
  unsigned a : 3, b : 5;
  int c : 7;
  unsigned long d : 40;
  signed char e : 2;
};
#pragma pack(push, 1)
struct packed {
  unsigned a : 5;
  signed long b : 37;
  unsigned long c : 50;
  signed d : 3;
  unsigned e : 29;
};
struct wide {
  unsigned long a : 60;
  signed long b : 61;
  unsigned long c : 7;
};
#pragma pack(pop)

static unsigned long hash(const void *from, int size) {
  unsigned long h = 5381;
  for (int k = 0; k < size; k++)
    h = h * 33 + ((const unsigned char *)from)[k];
  return h;
}

int main(void) {
  struct flags f;
  memset(&f, 0, sizeof f);
  f.a = 9;
  f.b = 31;
  f.c = -60;
  f.d = 1UL << 39 | 5;
  f.e = -2;
  f.c += 3;
  f.d -= 6;
  printf("%u %u %d %lx %d %lx\n", f.a, f.b, f.c, (unsigned long)f.d, f.e, hash(&f, sizeof f));
  struct packed p;
  memset(&p, 0, sizeof p);
  p.a = 21;
  p.b = -(1L << 36);
  p.c = 0x3f00f00f00f01;
  p.d = -4;
  p.e = 0x1abcdef0;
  p.b++;
  p.c ^= 0xff;
  p.e += p.a;
  printf("%u %ld %lx %d %x %lx\n", p.a, (long)p.b, (unsigned long)p.c, p.d, p.e, hash(&p, sizeof p));
  struct wide w = {1UL << 59, -(1L << 60), 100};
  w.a -= 3;
  w.b += w.c;
  w.c *= 3;
  printf("%lx %ld %d %lx\n", (unsigned long)w.a, (long)w.b, (int)w.c, hash(&w, sizeof w));
#ifdef P1
  struct flags g; // P1 root
  g.b = 3;
  if (g.b == 3 && g.c) // P1: branch "g.b"
    puts("c");
#endif
#ifdef P2
  struct wide *v = malloc(sizeof *v); // P2 root
  v->a = 5;
  v->c = 6;
  if (v->a == 5 && v->c == 6 && v->b) // P2: branch "v->a"
    puts("b");
#endif
#ifdef P3
  struct packed *q = malloc(sizeof *q); // P3 root
  q->b = 1;
  q->e = 2;
  if (q->b == 1 && q->e == 2 && q->c == 3) // P3: branch "q->b"
    puts("c");
#endif
  return 0;
}
