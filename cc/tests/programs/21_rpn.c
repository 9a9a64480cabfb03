// Reverse Polish notation, with errors by setjmp's poor cousin: a status handed up.
// args: 3 4 + 2 * 7 - dup print 2 swap / .
#include <stdio.h>
#include <stdlib.h>
#include <string.h>

enum status { OK, UNDERFLOW, OVERFLOW_, UNKNOWN, ZERO };
struct stack {
  long cells[16];
  int depth;
};
typedef enum status (*word_fn)(struct stack *);

static enum status push(struct stack *s, long v) {
  if (s->depth == 16)
    return OVERFLOW_;
  s->cells[s->depth++] = v;
  return OK;
}
static enum status pop(struct stack *s, long *v) {
  if (s->depth == 0)
    return UNDERFLOW;
#ifdef P1
  --s->depth;
  if (s->depth != 1)
    *v = s->cells[s->depth];
#else
  *v = s->cells[--s->depth];
#endif
  return OK;
}
#define BINARY(name, zero, expression)                                                                                                               \
  static enum status name(struct stack *s) {                                                                                                         \
    long a, b;                                                                                                                                       \
    if (pop(s, &b) || pop(s, &a))                                                                                                                    \
      return UNDERFLOW;                                                                                                                              \
    if (zero && b == 0)                                                                                                                              \
      return ZERO;                                                                                                                                   \
    return push(s, expression);                                                                                                                      \
  }
BINARY(add, 0, a + b)
BINARY(sub, 0, a - b)
BINARY(mul, 0, a *b)
BINARY(quotient, 1, a / b)
static enum status dup(struct stack *s) {
  long a;
  return pop(s, &a) ? UNDERFLOW : push(s, a) ? OVERFLOW_ : push(s, a);
}
static enum status swap(struct stack *s) {
  long a, b;
  if (pop(s, &b) || pop(s, &a))
    return UNDERFLOW;
  push(s, b);
  return push(s, a);
}
static enum status print(struct stack *s) {
  long a;
  if (pop(s, &a))
    return UNDERFLOW;
  if (a > 9) // P1: branch "a > 9"
    printf("big ");
  printf("%ld\n", a);
  return OK;
}
static const struct {
  const char *name;
  word_fn run;
} words[] = {{"+", add}, {"-", sub}, {"*", mul}, {"/", quotient}, {"dup", dup}, {"swap", swap}, {"print", print}, {".", print}};

static enum status run(struct stack *s, const char *word) {
  char *end;
  long v = strtol(word, &end, 10);
  if (*word && !*end)
    return push(s, v);
  for (size_t i = 0; i < sizeof words / sizeof *words; i++)
    if (strcmp(words[i].name, word) == 0)
      return words[i].run(s);
  return UNKNOWN;
}

int main(int argc, char **argv) {
  struct stack s = {.depth = 0};
  for (int i = 1; i < argc; i++) {
    enum status status = run(&s, argv[i]);
    if (status) {
      printf("%s: error %d\n", argv[i], status);
      return status;
    }
  }
  printf("%d left\n", s.depth);
  return 0;
}
