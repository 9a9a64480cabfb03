// Floats too, and arrays of them.
#include <stdio.h>
#include <string.h>

struct color {
  float r, g, b;
  unsigned char a;
};
static const struct color palette[2] = {{0.5f, 0.25f, 1.0f, 255}, {0, 0, 0, 0}};
static struct color swapped(struct color c) {
  float kept = c.r;
  c.r = c.b;
  c.b = kept;
  return c;
}
static unsigned bits(float f) {
  unsigned n;
  memcpy(&n, &f, sizeof n);
  return n;
}

int main(void) {
  struct color c = swapped(palette[0]);
  printf("%x %x %x %d\n", bits(c.r), bits(c.g), bits(c.b), c.a);
#ifdef P1
  struct color unset; // P1 root
  unset.r = 0.5f;
  unset.b = 0.25f;
  c = swapped(unset);
  if (bits(c.g)) // P1: branch "bits"
    puts("green");
#endif
  return 0;
}
