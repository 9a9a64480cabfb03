// Fixed-point arithmetic where others take doubles: sine by a table, square roots, a plot.
#include <stdint.h>
#include <stdio.h>

typedef int32_t fixed; // 16.16
#define ONE 65536

static fixed mul(fixed a, fixed b) { return (fixed)(((int64_t)a * b) >> 16); }
static fixed divide(fixed a, fixed b) { return (fixed)(((int64_t)a << 16) / b); }
static fixed square_root(fixed n) {
  fixed guess = n > ONE ? n / 2 : n * 2;
  for (int k = 0; k < 20 && guess; k++)
    guess = (guess + divide(n, guess)) / 2;
  return guess;
}
static fixed sine(fixed x) { // by its series, for 0 to half a turn of pi
  fixed term = x, sum = x, square = mul(x, x);
  for (int k = 1; k < 7; k++) {
    term = -divide(mul(term, square), 2 * k * (2 * k + 1) * ONE);
    sum += term;
  }
  return sum;
}
static void print(fixed n) {
  unsigned magnitude = n < 0 ? -n : n;
  printf("%s%u.%04u", n < 0 ? "-" : "", magnitude >> 16, (magnitude & 65535) * 10000u >> 16);
}

int main(void) {
  static const int numbers[] = {1, 2, 3, 10, 100, 144};
  for (int k = 0; k < 6; k++) {
    printf("%3d ", numbers[k]);
    print(square_root(numbers[k] * ONE));
    printf(" ");
    print(divide(ONE, numbers[k] * ONE));
    printf("\n");
  }
  for (int k = 0; k <= 12; k++) {
    fixed y = sine(k * 205887 / 12);
    print(y);
    printf(" %*s\n", 1 + (y * 30 + ONE / 2) / ONE, "*");
  }
  return 0;
}
