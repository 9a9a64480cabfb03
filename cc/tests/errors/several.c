// All of a program's errors at once, sorted by their places.
#include <stdio.h>
int first(void);
static double area(double r) {
  return r * r; // error "*": floating-point arithmetic
}
int main(int argc, char **argv) {
  if (argc > 5)
    return first(); // error "first": 'first' is neither in the program nor in the library
  __asm__("nop");   // error "__asm__": assembly
  return area(argc) > 4; // error ">": floating-point arithmetic // error "argc": floating-point arithmetic
}
