// Integers of more than 64 bits: arithmetic, overflow, bit-fields, variables; each bit of them unset at its place alone.
#include <stdio.h>
#include <string.h>

typedef unsigned __int128 u128;
typedef __int128 i128;

static unsigned long seed = 88172645463325252UL;
static unsigned long next(void) {
  seed ^= seed << 13;
  seed ^= seed >> 7;
  seed ^= seed << 17;
  return seed >> (seed % 64);
}
static i128 wide(void) {
  i128 x = ((u128)next() << 64) | next();
  return next() & 1 ? x : x >> 70;
}
static void show(u128 x) { printf("%lx:%lx ", (unsigned long)(x >> 64), (unsigned long)x); }

static void overflow(unsigned long a, long b) {
  int r;
  long q;
  unsigned long z;
  printf("%d ", __builtin_mul_overflow(a, b, &r));
  printf("%d %d ", r, __builtin_mul_overflow(a, b, &q));
  printf("%ld %d ", q, __builtin_mul_overflow(a, b, &z));
  printf("%lu %d ", z, __builtin_add_overflow(a, b, &z));
  printf("%lu %d ", z, __builtin_sub_overflow(b, a, &q));
  printf("%ld\n", q);
}

static void compute(i128 x, i128 y) {
  i128 s;
  u128 t;
  printf("%d ", __builtin_mul_overflow(x, y, &s));
  show(s);
  printf("%d ", __builtin_mul_overflow((u128)x, (u128)y, &t));
  show(t);
  printf("%d ", __builtin_sub_overflow(x, y, &s));
  show(s);
  printf("%d ", __builtin_add_overflow((u128)x, (u128)y, &t));
  show(t);
  show(x * y), show(x - y), show(x + y), show(x >> 5), show((u128)y >> 77), show(x << 66), show(x & ~y);
  printf("%d%d%d%d%d%d\n", x < y, x <= y, x == y, (u128)x < (u128)y, (u128)x >= (u128)y, x > 0);
}

struct packed {
  unsigned a : 5;
  unsigned long b : 63;
  unsigned c : 7;
  long d : 60;
} __attribute__((packed));

struct with {
  char c;
  i128 x;
  long double l;
} with = {'a', -5, 1.5L};

int main(void) {
  for (int k = 0; k < 60; k++) {
    unsigned long a = next();
    overflow(a, k & 1 ? -(long)next() : (long)next());
    i128 x = wide(), y = wide();
    compute(k & 2 ? -x : x, y);
  }
  struct packed p;
  p.a = 17, p.b = 0x7123456789abcdef, p.c = 100, p.d = -12345678901234;
  p.b += 5, p.d *= 3;
  printf("%u %lx %u %ld\n", p.a, (unsigned long)p.b, p.c, (long)p.d);
  struct with copy = with;
  show(copy.x++), show(copy.x);
  puts(memcmp(&copy.l, &with.l, 10) ? "other" : "same");
#ifdef P1
  struct packed q; // P1 root
  q.a = 1, q.c = 2, q.d = 3;
  if (q.c == 2 && q.a == 1)
    puts("set");
  if (q.b == 7) // P1: branch "q.b"
    puts("seven");
#endif
#ifdef P2
  long lower; // P2 root
  u128 sum = ((u128)1 << 64 | (unsigned long)lower) + 1;
  if (sum >> 64 == 2) // P2: branch "sum"
    puts("carried");
#endif
#ifdef P3
  long unset, product; // P3 root
  if (__builtin_mul_overflow(unset, 3ul, &product)) // P3: branch "__builtin"
    puts("over");
#endif
#ifdef P4
  long upper; // P4 root
  u128 pair = (u128)(unsigned long)upper << 64 | 5;
  if ((unsigned long)pair == 5)
    puts("five");
  if (pair > 9) // P4: branch "pair"
    puts("more");
#endif
  return 0;
}
