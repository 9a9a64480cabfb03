// Calls through pointers: of another type, of none, of what msan has itself; and each label of a jump.
#include <stdio.h>
#include <stdlib.h>
#include <string.h>

static int one(int x) { return x + 1; }
static int two(int x) { return x + 2; }
static long three(long x) { return x + 3; }
static int (*table[])(int) = {one, two};
static void *(*allocate)(size_t) = malloc;
static void (*release)(void *) = free;
static void *(*copy)(void *, const void *, size_t) = memcpy;
static long (*lonely)(int, int, int);

int main(void) {
  int (*f)(int);
  f = table[1];
  printf("%d %d %d %ld\n", f(1), table[0](1), f == two, three(1));
  printf("%d\n", ((unsigned long)f & 7) == 0);
  char *bytes = allocate(8);
  copy(bytes, "1234567", 8);
  puts(bytes);
  release(bytes);
#ifdef P1
  f = (int (*)(int))three;
  printf("%d\n", f(1)); // P1: trap abort "f(1)"
#endif
#ifdef P2
  lonely(1, 2, 3); // P2: trap bad-address "lonely"
#endif
#ifdef P3
  int (*unset)(int); // P3 root
  unset(1); // P3: address "unset"
#endif
#ifdef P4
  char *other = allocate(8); // P4 root
  if (other[1] == 'x') // P4: branch "other"
    puts("x");
#endif
#ifdef P5
  size_t length; // P5 root
  copy(bytes, bytes, length); // P5: size "copy"
#endif
  return 0;
}
