// A table with widths from data: every alignment that printf has.
#include <stdio.h>
#include <string.h>

struct row {
  const char *name;
  int amount;
  unsigned flags;
  long long total;
};

static void rule(int width) {
  while (width-- > 0)
    putchar('-');
  putchar('\n');
}

int main(void) {
  const struct row rows[] = {{"apples", 12, 0x1f, 1234567890123LL}, {"pears", -7, 0, -5}, {"watermelons", 100000, 0xdeadbeef, 0}};
  int width; // P1 root
#ifndef P1
  width = 0;
#endif
  for (int i = 0; i < 3; i++) {
    int n = (int)strlen(rows[i].name);
    if (n > width) // P1: branch "n > width"
      width = n;
  }
  rule(width + 50);
  for (int i = 0; i < 3; i++) {
    const struct row *r = &rows[i];
    printf("%-*s|%8d|%+8d|%08X|%#10x|%15lld|\n", width, r->name, r->amount, r->amount, r->flags, r->flags, r->total);
    printf("%*s|%-8d|% d|%o|%5.3s|%.2s|%c|%%\n", width, r->name, r->amount, r->amount, r->flags & 511, r->name, r->name, r->name[0]);
  }
  rule(width + 50);
  printf("%zu bytes, %hhd %hu %5.2d %ld\n", sizeof rows, (signed char)300, (unsigned short)70000, 7, -1L);
  return 0;
}
