// Structs as results, of one and two words and larger; chosen, taken apart, through a pointer. What wasn't set stays so: members and padding.
#include <stdio.h>
#include <stdlib.h>
#include <unistd.h>

struct range {
  const char *from;
  long size;
};
struct three {
  int a, b, c;
};
struct padded { // three bytes of padding within the first word
  char c;
  int n;
  long m;
};
struct tail {
  long n;
  char c;
};
struct large {
  long v[6];
};

static struct range word(const char *text) {
  struct range r = {text, 0};
  while (text[r.size] && text[r.size] != ' ')
    r.size++;
  return r;
}
static struct three three(int a) { return (struct three){a, a + 1, a + 2}; }
static struct three part(int a) {
  struct three t; // P1 root
  t.a = a;
  t.c = 3;
  return t;
}
static struct padded padded(char c) {
  struct padded p;
  p.c = c;
  p.n = 'n';
  p.m = 'm';
  return p;
}
static struct tail tail(char c) { return (struct tail){1, c}; }
static struct large large(int n) {
  struct large l;
  for (int k = 0; k < n; k++)
    l.v[k] = k;
  return l;
}
static struct three (*maker)(int) = three;
static struct three choose(int k) { return k > 1 ? three(k) : k ? maker(10) : part(7); }
static struct range empty(int k) { return k ? word("some text") : (struct range){NULL, 0}; }

int main(void) {
  struct range r = word("hello world");
  printf("%ld %s %ld\n", r.size, r.from, empty(1).size + empty(0).size);
  struct three t = three(5), u = choose(1), v = choose(2);
  printf("%d %d %d %d\n", t.a + t.b + t.c, u.c, v.b, choose(0).a);
  struct padded p = padded('p'), *kept = malloc(sizeof *kept);
  *kept = padded('k');
  printf("%c%c%c%c %ld%c\n", p.c, p.n, (int)p.m, kept->c, tail('t').n, tail('t').c);
  printf("%ld %ld\n", large(6).v[5], large(3).v[2]);
  div_t d = div(17, 5);
  ldiv_t e = ldiv(-17, 5);
  printf("%d %d %ld %ld\n", d.quot, d.rem, e.quot, e.rem);
#ifdef P1
  t = part(1);
  if (t.b == 2) // P1: branch "t.b"
    puts("two");
#endif
#ifdef P2
  write(1, &p, sizeof p); // P2: output "write"
#endif
#ifdef P3
  write(1, kept, sizeof *kept); // P3: output "write"
#endif
#ifdef P4
  struct large l = large(3); // P4 root
  if (l.v[4] == 4) // P4: branch "l.v[4]"
    puts("four");
#endif
#ifdef P5
  struct three w = choose(0);
  if (w.b) // P5: branch "w.b"
    puts("b");
#endif
  return 0;
}
