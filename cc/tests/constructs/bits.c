// Builtins on bits: counted, found, turned, swapped; ffs of zero too.
#include <stdint.h>
#include <stdio.h>
#include <strings.h>

static const unsigned long numbers[] = {0, 1, 6, 0x80, 0xff00, 0x80000000, 0x100000000, 0xf0f0f0f0f0f0f0f0, ~0UL};

int main(void) {
  for (unsigned k = 0; k < sizeof numbers / sizeof *numbers; k++) {
    unsigned long n = numbers[k];
    printf("%d %d", __builtin_ffs((int)n), __builtin_ffsl((long)n));
    printf(" %d %d", __builtin_ffsll((long long)n), ffs((int)(n >> 8)));
    printf(" %d %d %d", __builtin_popcount((unsigned)n), __builtin_popcountl(n), __builtin_parity((unsigned)n));
    if (n)
      printf(" %d %d", __builtin_clzl(n), __builtin_ctzl(n));
    printf(" %x %lx %x", __builtin_bswap32((uint32_t)n), __builtin_bswap64(n), __builtin_bswap16((uint16_t)n));
    printf(" %lx %x", __builtin_rotateleft64(n, 13), __builtin_rotateright32((uint32_t)n, 5));
    printf(" %lx %x %d\n", __builtin_bitreverse64(n), __builtin_bitreverse8((uint8_t)n), __builtin_clrsb((int)n));
  }
#ifdef P1
  int unset; // P1 root
  if (__builtin_ffs(unset) == 4) // P1: branch "__builtin_ffs"
    puts("four");
#endif
#ifdef P2
  unsigned word; // P2 root
  word = word & 0xff | 0x100;
  if (__builtin_popcount(word) == 3) // P2: branch "__builtin_popcount"
    puts("three");
#endif
  return 0;
}
