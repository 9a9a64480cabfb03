// The builtins that tell of overflow, at their borders, with operands of every width and of mixed signs; the flag is unset where an operand is.
#include <limits.h>
#include <stdint.h>
#include <stdio.h>

static unsigned long seed = 1;
static unsigned long next(void) { // numbers near to 0, to powers of two and to their negatives
  seed = seed * 6364136223846793005UL + 1442695040888963407UL;
  unsigned long r = seed ^ seed >> 29;
  switch (r & 7) {
  case 0: return r >> 3;
  case 1: return r >> 35;
  case 2: return r >> 50;
  case 3: return -(r >> 33);
  case 4: return 1UL << (r >> 3 & 63);
  case 5: return -(1UL << (r >> 3 & 63));
  case 6: return (1UL << (r >> 3 & 63)) - 1;
  default: return r >> 60;
  }
}
static unsigned long hash = 14695981039346656037UL;
static void mix(unsigned long v) { hash = (hash ^ v) * 1099511628211UL; }
#define EACH(A, B, R)                                                                                                                                \
  {                                                                                                                                                  \
    A a = (A)x;                                                                                                                                      \
    B b = (B)y;                                                                                                                                      \
    R r;                                                                                                                                             \
    mix(__builtin_add_overflow(a, b, &r));                                                                                                           \
    mix((unsigned long)r);                                                                                                                           \
    mix(__builtin_sub_overflow(a, b, &r));                                                                                                           \
    mix((unsigned long)r);                                                                                                                           \
    mix(__builtin_mul_overflow(a, b, &r));                                                                                                           \
    mix((unsigned long)r);                                                                                                                           \
  }
#define SAME(T) EACH(T, T, T)

int main(void) {
  for (int k = 0; k < 1500; k++) {
    unsigned long x = next(), y = next();
    SAME(signed char) SAME(unsigned char) SAME(short) SAME(unsigned short) SAME(int) SAME(unsigned) SAME(long) SAME(unsigned long)
    SAME(_BitInt(33)) SAME(unsigned _BitInt(33)) SAME(_BitInt(7)) SAME(_BitInt(47))
    EACH(int, unsigned, int) EACH(unsigned, int, unsigned) EACH(int, long, short) EACH(unsigned char, signed char, int)
  }
  printf("%lx\n", hash);
  int r;
  unsigned u;
  long l;
  unsigned long ul;
  printf("%d", __builtin_sadd_overflow(INT_MAX, 1, &r));
  printf(" %d", __builtin_ssub_overflow(INT_MIN, 1, &r));
  printf(" %d", __builtin_smul_overflow(INT_MIN, -1, &r));
  printf(" %d", __builtin_umul_overflow(65536, 65536, &u));
  printf(" %d", __builtin_saddl_overflow(LONG_MAX, 0, &l));
  printf(" %d\n", __builtin_usubl_overflow(0, 1, &ul));
#ifdef P1
  int a; // P1 root
  if (__builtin_add_overflow(a, 1, &r)) // P1: branch "__builtin_add_overflow"
    puts("over");
#endif
#ifdef P2
  unsigned b; // P2 root
  if (__builtin_sub_overflow(3u, b, &u)) // P2: branch "__builtin_sub_overflow"
    puts("over");
#endif
#ifdef P3
  int64_t c; // P3 root
  int64_t m;
  if (__builtin_mul_overflow(c, 3, &m)) // P3: branch "__builtin_mul_overflow"
    puts("over");
#endif
#ifdef P4
  short d, s;
  __builtin_mul_overflow(d, 3, &s);
  if (s == 6) // P4: branch "s =="
    puts("six");
#endif
#ifdef P5
  unsigned long e; // P5 root
  if (__builtin_mul_overflow(5UL, e, &ul)) // P5: branch "__builtin_mul_overflow"
    puts("over");
#endif
  return 0;
}
