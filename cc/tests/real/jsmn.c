#include "jsmn.h"
int putchar(int);
int puts(const char *);
static void num(int n) {
  if (n < 0) {
    putchar('-');
    n = -n;
  }
  if (n > 9)
    num(n / 10);
  putchar('0' + n % 10);
}
int main(void) {
  jsmn_parser p;
  jsmntok_t t[64];
  const char *s = "{\"a\":[1,2,{\"b\":null}],\"c\":\"x\\u00e9\"}";
  int len = 0;
  while (s[len])
    len++;
  jsmn_init(&p);
  int r = jsmn_parse(&p, s, len, t, 64);
  num(r);
  putchar('\n');
  for (int i = 0; i < r; i++) {
    num(t[i].type);
    putchar(' ');
    num(t[i].start);
    putchar(' ');
    num(t[i].end);
    putchar(' ');
    num(t[i].size);
    putchar('\n');
  }
  return 0;
}
