// Marks for the linker: aliases, weak functions and variables, sections, visibility, inline functions, used and unused.
// with: other/marks.c
#include <stdio.h>

__attribute__((weak)) int chosen(void) { return 1; }
int replaced(void);
extern int missing(void) __attribute__((weak));
extern int missing_value __attribute__((weak));
int real(int a) { return a * 2; }
int other(int a) __attribute__((alias("real")));
int variable = 5;
extern int second __attribute__((alias("variable")));
__attribute__((section(".special"))) static int placed = 6;
__attribute__((visibility("hidden"))) int hidden(void) { return 7; }
__attribute__((used)) static int unused(void) { return 8; }
static inline int quick(int a) { return a + 9; }
__attribute__((noinline, cold)) static int slow(int a) { return a + 10; }
extern int shared[4];

int main(void) {
  int (*function)(int) = other;
  printf("%d %d %d %d\n", chosen(), replaced(), missing ? missing() : -1, &missing_value != 0);
  variable++;
  printf("%d %d %d %d\n", function(5), other(6), second, placed);
  printf("%d %d %d %d\n", hidden(), quick(0), slow(0), shared[2]);
  return 0;
}
