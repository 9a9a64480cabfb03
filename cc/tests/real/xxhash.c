#define XXH_STATIC_LINKING_ONLY
#include "xxhash.h"
int putchar(int);
static void hex(unsigned long long n) {
  for (int k = 60; k >= 0; k -= 4)
    putchar("0123456789abcdef"[(n >> k) & 15]);
  putchar('\n');
}
int main(void) {
  unsigned char b[1000];
  for (int k = 0; k < 1000; k++)
    b[k] = (unsigned char)(k * 7);
  hex(XXH32(b, 1000, 1));
  hex(XXH64(b, 1000, 1));
  hex(XXH64(b, 3, 9));
  return 0;
}
