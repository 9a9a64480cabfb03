// malloc, realloc and free as values: memory has the place of the call.
#include <stdio.h>
#include <stdlib.h>

struct hooks {
  void *(*get)(size_t);
  void *(*more)(void *, size_t);
  void (*give)(void *);
};
static void *counted(size_t size) {
  printf("%d bytes\n", (int)size);
  return calloc(size, 1);
}
static struct hooks hooks = {malloc, realloc, free};

int main(void) {
  int *p = hooks.get(8); // P1 root
  p[0] = 1;
#ifndef P1
  p[1] = 2;
#endif
  if (p[0] + p[1] == 3) // P1: branch "p[0]"
    puts("three");
  p = hooks.more(p, 16); // P2 root
#ifndef P2
  p[3] = 4;
#endif
  if (p[3] == 4) // P2: branch "p[3]"
    puts("four");
  hooks.give(p);
#ifdef P3
  hooks.give(p); // P3: trap bad-free "hooks.give"
#endif
  hooks.get = counted;
  p = hooks.get(4);
  printf("%d\n", *p);
  hooks.give(p);
  return 0;
}
