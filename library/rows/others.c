#include "rows.h"

CLEAN(__errno_location) {
  printf("%d\n", errno); // prints 0
  errno = ERANGE;
  printf("%d\n", errno == ERANGE); // prints 1
}

CLEAN(__assert_fail) { // ends trap abort
  int wanted = 3;
  assert(wanted == 3);
  // prints library/rows/others.c:13: void clean___assert_fail(void): Assertion `wanted == 4' failed.
  assert(wanted == 4);
}

POISONED(__assert_fail) { // reports string in __assert_fail, lifetime
  char condition[4];
  __assert_fail(condition, "file.c", 1, "main");
}

CLEAN(fputc) {
  printf(" %d\n", fputc('a', stdout));                    // prints a 97
  printf("%d %d\n", fputc(1, stderr), fputc(300, stderr)); // prints 1 44
}

POISONED(fputc) { // reports value in put, stored in put, stored in fputc, lifetime
  int c;
  fputc(c, stdout);
}

CLEAN(putc) {
  printf(" %d\n", putc('a', stdout)); // prints a 97
}

POISONED(putc) { // reports value in put, stored in put, stored in putc, lifetime
  int c;
  putc(c, stdout);
}

CLEAN(fputs) {
  fputs("a ", stdout);
  printf("%d %d\n", fputs("word", stderr) >= 0, fputs("", stdout) >= 0); // prints a 1 1
}

POISONED(fputs) { // reports branch in fputs, lifetime
  char text[4];
  fputs(text, stdout);
}

int main(void) { ROW(); }
