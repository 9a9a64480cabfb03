// A state machine whose states are functions: takes comments out of C text.
// input: int a; // one\n/* two\nlines */ char *s = "/* no */ // no"; c = '/'; /**/ d = a / b;\n
#include <stdio.h>

struct machine;
typedef void (*state)(struct machine *, int);
struct machine {
  state now;
  int removed;
  int quote;
};
static void code(struct machine *, int), slash(struct machine *, int), line_comment(struct machine *, int), comment(struct machine *, int), star(struct machine *, int),
    string(struct machine *, int), escaped(struct machine *, int);

static void code(struct machine *m, int c) {
  if (c == '/') {
    m->now = slash;
    return;
  }
  if (c == '"' || c == '\'') {
    m->quote = c;
    m->now = string;
  }
  putchar(c);
}
static void slash(struct machine *m, int c) {
  if (c == '/')
    m->now = line_comment;
  else if (c == '*')
    m->now = comment;
  else {
    putchar('/');
    m->now = code;
    code(m, c);
  }
}
static void line_comment(struct machine *m, int c) {
  m->removed++;
  if (c == '\n') {
    putchar(c);
    m->now = code;
  }
}
static void comment(struct machine *m, int c) {
  m->removed++;
  if (c == '*')
    m->now = star;
}
static void star(struct machine *m, int c) {
  m->removed++;
  if (c == '/') {
    putchar(' ');
    m->now = code;
  } else if (c != '*')
    m->now = comment;
}
static void string(struct machine *m, int c) {
  putchar(c);
  if (c == '\\')
    m->now = escaped;
  else if (c == m->quote)
    m->now = code;
}
static void escaped(struct machine *m, int c) {
  putchar(c);
  m->now = string;
}

int main(void) {
  struct machine m; // P1 root
#ifndef P1
  m.now = code;
#endif
  m.removed = 0;
  for (int c; (c = getchar()) != EOF;)
    m.now(&m, c); // P1: address "m.now"
  printf("%d removed\n", m.removed);
  return 0;
}
