// Builtins that say something to the compiler, and what it makes of them.
#include <assert.h>
#include <stdio.h>
#include <stdlib.h>
#include <string.h>

struct list {
  int count;
  int items[];
};
static int sign(int n) {
  switch (n < 0 ? -1 : n > 0) {
  case -1: return -1;
  case 0: return 0;
  case 1: return 1;
  }
  __builtin_unreachable();
}
static int *aligned(int *p) { return __builtin_assume_aligned(p, 4); }
#define MAX(a, b) ({ __typeof__(a) a_ = (a); __typeof__(b) b_ = (b); a_ > b_ ? a_ : b_; })
#define KIND(x) _Generic((x), int : "int", long : "long", char * : "text", default : "other")

int main(void) {
  struct list *l = malloc(sizeof *l + 3 * sizeof(int));
  l->count = 3;
  for (int k = 0; k < l->count; k++)
    l->items[k] = k * k;
  int *p = aligned(l->items);
  __builtin_prefetch(p);
  if (__builtin_expect(p[2] == 4, 1) && __builtin_expect_with_probability(p[1] == 1, 1, 0.9))
    printf("%d %d %d\n", sign(-5), sign(0), sign(7));
  printf("%d %s %s %s\n", MAX(3, p[2]), KIND(1), KIND(2L), KIND((char *)0));
  __builtin_memcpy_inline(p, p + 1, 4);
  __asm__ volatile("" ::: "memory");
  printf("%d %d %d\n", p[0], __builtin_constant_p(p[0]), (int)__builtin_object_size(l, 0) != 0);
  assert(p[1] == 1);
  const char *name = __func__;
  printf("%s %zu %zu\n", name, strlen(name), __builtin_offsetof(struct list, items));
  int *made = (int[]){[2] = 5, [0] = 1};
  struct list *same = (struct list *)__builtin_align_down(l, 4);
  printf("%d %d\n", made[0] + made[1] + made[2], same == l);
  switch (p[1]) {
  case 0 ... 3: puts("range"); break;
  default: puts("outside");
  }
#ifdef P1
  int unset; // P1 root
  if (__builtin_expect(unset == 3, 0)) // P1: branch "__builtin_expect"
    puts("three");
#endif
#ifdef P2
  struct list *m = malloc(sizeof *m + 2 * sizeof(int)); // P2 root
  m->count = 2;
  m->items[0] = 1;
  if (MAX(1, m->items[1]) == 1) // P2: branch "MAX"
    puts("one");
#endif
  return 0;
}
