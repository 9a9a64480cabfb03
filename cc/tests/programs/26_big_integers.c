// Big integers: factorials and Fibonacci numbers in base 10^9, as values of a struct.
#include <stdint.h>
#include <stdio.h>
#include <string.h>

enum { LIMBS = 12, BASE = 1000000000 };
typedef struct {
  int count;
  uint32_t limb[LIMBS];
} Big;

static Big from(uint32_t n) {
  Big b;
#ifndef P1
  memset(&b, 0, sizeof b);
#endif
  b.count = 1;
  b.limb[0] = n;
  return b;
}
static Big add(Big a, Big b) {
  uint64_t carry = 0;
  int most = a.count > b.count ? a.count : b.count;
  for (int i = 0; i < most; i++) {
    carry += (uint64_t)a.limb[i] + b.limb[i];
    a.limb[i] = carry % BASE;
    carry /= BASE;
  }
  a.count = most;
  if (carry) // P1: branch "carry"
    a.limb[a.count++] = (uint32_t)carry;
  return a;
}
static Big times(Big a, uint32_t n) {
  uint64_t carry = 0;
  for (int i = 0; i < a.count; i++) {
    carry += (uint64_t)a.limb[i] * n;
    a.limb[i] = carry % BASE;
    carry /= BASE;
  }
  if (carry)
    a.limb[a.count++] = (uint32_t)carry;
  return a;
}
static void print(const char *label, int n, const Big *b) {
  printf("%s(%d) = %u", label, n, b->limb[b->count - 1]);
  for (int i = b->count - 2; i >= 0; i--)
    printf("%09u", b->limb[i]);
  printf("\n");
}

int main(void) {
  Big f = from(1), a = from(0), b = from(1);
  for (int n = 1; n <= 50; n++) {
    f = times(f, n);
    Big c = add(a, b);
    a = b;
    b = c;
    if (n % 10 == 0) {
      print("factorial", n, &f);
      print("fibonacci", n, &a);
    }
  }
  for (int n = 50; n < 300; n++) {
    Big c = add(a, b);
    a = b;
    b = c;
  }
  print("fibonacci", 300, &a);
  return 0;
}
