// Bit tricks: counting, reversing, rotating, gray codes, sets as words, packed dates.
#include <stdint.h>
#include <stdio.h>

static int count_bits(uint32_t n) {
  int count = 0;
  for (; n; n &= n - 1)
    count++;
  return count;
}
static uint32_t reverse(uint32_t n) {
  n = (n >> 1 & 0x55555555) | (n & 0x55555555) << 1;
  n = (n >> 2 & 0x33333333) | (n & 0x33333333) << 2;
  n = (n >> 4 & 0x0f0f0f0f) | (n & 0x0f0f0f0f) << 4;
  return n >> 24 | (n >> 8 & 0xff00) | (n & 0xff00) << 8 | n << 24;
}
static uint32_t rotl(uint32_t n, unsigned k) { return n << (k & 31) | n >> (-k & 31); }
static int is_power(uint32_t n) { return n && !(n & (n - 1)); }
static unsigned log2_floor(uint32_t n) {
  unsigned r = 0;
  while (n >>= 1)
    r++;
  return r;
}
struct date {
  uint16_t day : 5, month : 4, year : 7;
};

int main(void) {
  uint32_t tests[] = {0, 1, 0x80000000, 0xdeadbeef, 12345, 0xffffffff};
  for (size_t i = 0; i < sizeof tests / sizeof *tests; i++) {
    uint32_t n = tests[i];
    printf("%08x bits %2d reversed %08x rotated %08x power %d log %u gray %x\n", n, count_bits(n), reverse(n), rotl(n, 7), is_power(n), n ? log2_floor(n) : 0, n ^ n >> 1);
  }
#ifdef P1
  uint64_t primes; // P1 root
#else
  uint64_t primes = 0;
#endif
  for (int n = 2; n < 64; n++) {
    int prime = 1;
    for (int d = 2; d * d <= n; d++)
      if (n % d == 0)
        prime = 0;
    if (prime)
      primes |= 1ULL << n;
  }
  for (int n = 0; n < 64; n++)
    if (primes >> n & 1) // P1: branch "primes"
      printf("%d ", n);
  printf("\n");
  struct date d = {31, 12, 99};
  d.day++;
  printf("%d.%d.%d %zu\n", d.day, d.month, d.year, sizeof d);
  return 0;
}
