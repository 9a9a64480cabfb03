// A calculator: expressions of standard input by recursive descent, operators in a table of functions.
// input: 1 + 2 * 3\n(4 - 6) * (7 + 1) / 3\n2 ^ 10\n2 ^ 7 % 100\n8 / (3 - 3)\n-5 - -7\n4 $ 4\n
#include <ctype.h>
#include <stdio.h>
#include <string.h>

typedef long (*op_fn)(long, long);
static const char *at;
static const char *error;

static long add(long a, long b) { return a + b; }
static long sub(long a, long b) { return a - b; }
static long mul(long a, long b) { return a * b; }
static long divide(long a, long b) {
  if (b == 0) {
    error = "division by zero";
    return 0;
  }
  return a / b;
}
static long modulo(long a, long b) { return b ? a % b : (error = "modulo zero", 0); }
static long power(long a, long b) {
  long r; // P1 root
#ifndef P1
  r = 1;
#endif
  while (b-- > 0)
    r *= a;
  return r;
}
static const struct {
  char sign;
  int level;
  op_fn apply;
} ops[] = {{'+', 0, add}, {'-', 0, sub}, {'*', 1, mul}, {'/', 1, divide}, {'%', 1, modulo}, {'^', 2, power}};

static char peek(void) {
  while (*at == ' ')
    at++;
  return *at;
}
static long binary(int level);
static long primary(void) {
  char c = peek();
  if (c == '-') {
    at++;
    return -primary();
  }
  if (c == '(') {
    at++;
    long v = binary(0);
    if (peek() == ')')
      at++;
    else
      error = "missing )";
    return v;
  }
  if (!isdigit((unsigned char)c)) {
    error = "number expected";
    return 0;
  }
  long v = 0;
  while (isdigit((unsigned char)*at))
    v = v * 10 + *at++ - '0';
  return v;
}
static long binary(int level) {
  if (level > 2)
    return primary();
  long left = binary(level + 1);
  for (;;) {
    char c = peek();
    op_fn f = NULL;
    for (size_t i = 0; i < sizeof ops / sizeof *ops; i++)
      if (ops[i].sign == c && ops[i].level == level)
        f = ops[i].apply;
    if (!f)
      return left;
    at++;
    left = f(left, binary(level + 1));
  }
}

int main(void) {
  char line[100];
  while (fgets(line, sizeof line, stdin)) {
    line[strcspn(line, "\n")] = 0;
    at = line;
    error = NULL;
    long v = binary(0);
    if (!error && peek())
      error = "trailing text";
    if (error)
      printf("%s: error: %s\n", line, error);
    else
      printf("%s = %ld%s\n", line, v, v < 0 ? " (negative)" : ""); // P1: value "printf"
  }
  return 0;
}
