// Structs as arguments: small ones in words, large ones copied, with their unset parts.
#include <stdio.h>
#include <unistd.h>

struct large {
  int v[10];
};
struct padded {
  char c;
  long n;
};
struct three {
  int a, b, c;
};
struct nested {
  struct padded p[2];
  struct three t;
};
union either {
  int number;
  char bytes[24];
};

static int sum(struct large l, struct three t) {
  int s = t.a + t.b + t.c;
  for (int k = 0; k < 10; k++)
    s += l.v[k];
  l.v[0] = 99;
  return s;
}
static long deep(struct nested n, int k) {
  n.p[0].n++;
  return k ? n.p[1].n + n.t.b + deep(n, k - 1) : n.p[0].n;
}
static int byte(union either e, int k) { return e.bytes[k]; }
static void show(struct padded p) { write(1, &p, sizeof p); } // P2: output "write"

int main(void) {
  struct large l = {{1, 2, 3}};
  struct three t = {4, 5, 6};
  printf("%d %d\n", sum(l, t), l.v[0]);
  struct nested n = {{{'a', 1}, {'b', 2}}, {7, 8, 9}};
  printf("%ld %ld\n", deep(n, 3), n.p[0].n);
  union either e = {.bytes = "abc"};
  printf("%d\n", byte(e, 2));
#ifdef P1
  struct large part;
  for (int k = 0; k < 10; k++)
    if (k != 6)
      part.v[k] = k;
  if (sum(part, t) == 54) // P1: branch "sum"
    puts("all");
#endif
#ifdef P2
  struct padded p;
  p.c = 'x';
  p.n = 'y';
  show(p);
#endif
#ifdef P3
  union either some;
  some.number = 0x61626364;
  if (byte(some, 5) == 'a') // P3: branch "byte"
    puts("a");
#endif
  return 0;
}
