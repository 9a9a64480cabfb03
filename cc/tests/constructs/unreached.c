// What nothing reaches can't run: a function with floating point and one with assembly.
#include <stdio.h>

double mean(double a, double b) { return (a + b) / 2; }
int add(int a) {
  __asm__("addl $2, %0" : "+r"(a));
  return a;
}

int main(void) {
  puts("reached");
  return 0;
}
