static long double twice(long double n) {
  return n + n; // error "+": floating-point arithmetic
}
int main(void) { return twice(2) > 3; } // error ">": floating-point arithmetic
