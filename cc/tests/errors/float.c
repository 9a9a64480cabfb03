#include <stdio.h>
struct point {
  float x, y;
};
static double half(int n) {
  double d = n;       // error "n;": floating-point arithmetic
  return d / 2.0;     // error "/": floating-point arithmetic
}
int main(void) {
  struct point p = {1, 2};
  if (p.x < p.y)      // error "<": floating-point arithmetic
    puts("less");
  printf("%d\n", (int)half(3)); // error "(int)": floating-point arithmetic
  return -p.x > 0;    // error "-p": floating-point arithmetic // error ">": floating-point arithmetic
}
