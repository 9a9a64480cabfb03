// Functions as values: in variables, members, tables, arguments and results; compared, and called through.
#include <stddef.h>
#include <stdio.h>
#include <stdlib.h>
#include <string.h>

typedef int (*binary)(int, int);
struct shape {
  const char *name;
  int (*area)(const struct shape *);
  int w, h;
};

static int add(int a, int b) { return a + b; }
static int sub(int a, int b) { return a - b; }
static int mul(int a, int b) { return a * b; }
static int box(const struct shape *s) { return s->w * s->h; }
static int line(const struct shape *s) { return s->w + s->h; }
static const struct {
  char sign;
  binary f;
} table[] = {{'+', add}, {'-', sub}, {'*', mul}, {0, NULL}};

static binary chosen(char sign) {
  for (int k = 0; table[k].f; k++)
    if (table[k].sign == sign)
      return table[k].f;
  return NULL;
}
static int fold(binary f, int start, const int *from, int count) {
  for (int k = 0; k < count; k++)
    start = f(start, from[k]);
  return start;
}
static void each(const int *from, int count, void (*visit)(int, void *), void *data) {
  for (int k = 0; k < count; k++)
    visit(from[k], data);
}
static void total(int n, void *data) { *(long *)data += n; }
static void greatest(int n, void *data) {
  if (n > *(int *)data)
    *(int *)data = n;
}
static binary (*chooser(void))(char) { return chosen; }

int main(void) {
  static const int numbers[] = {3, 1, 4, 1, 5};
  long sum = 0;
  int most = 0;
  each(numbers, 5, total, &sum);
  each(numbers, 5, greatest, &most);
  printf("%ld %d\n", sum, most);
  for (const char *sign = "+-*"; *sign; sign++)
    printf("%c %d\n", *sign, fold(chosen(*sign), 2, numbers, 5));
  printf("%d %d\n", chosen('/') == NULL, chooser()('-') == sub);
  struct shape shapes[2] = {{"box", box, 3, 4}, {"line", line, 3, 4}};
  for (int k = 0; k < 2; k++)
    printf("%s %d\n", shapes[k].name, shapes[k].area(&shapes[k]));
  binary copied;
  memcpy(&copied, &table[2].f, sizeof copied);
  printf("%d %d\n", copied(6, 7), copied == mul);
#ifdef P1
  struct shape unset;
  unset.w = unset.h = 2;
  printf("%d\n", unset.area(&unset)); // P1: address "unset.area"
#endif
#ifdef P2
  binary none = chosen('/');
  printf("%d\n", none(1, 2)); // P2: trap bad-address "none"
#endif
#ifdef P3
  binary *made = malloc(2 * sizeof *made); // P3 root
  made[0] = add;
  if (made[1] == add) // P3: branch "made[1]"
    puts("add");
#endif
#ifdef P4
  int unset; // P4 root
  int result = fold(mul, unset, numbers, 5);
  if (result == 7) // P4: branch "result"
    puts("seven");
#endif
#ifdef P5
  binary wild = (binary)8;
  printf("%d\n", wild(1, 2)); // P5: trap bad-address "wild"
#endif
  return 0;
}
