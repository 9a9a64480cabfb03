// Quotients, first bits, random numbers. The random numbers are glibc's, so that a program prints what it prints elsewhere.
#define _GNU_SOURCE
#include "library.h"

#include <stdint.h>
#include <stdlib.h>
#include <strings.h>
#include <sys/random.h>

weak div_t div(int a, int b) { return (div_t){a / b, a % b}; }
weak ldiv_t ldiv(long a, long b) { return (ldiv_t){a / b, a % b}; }
weak lldiv_t lldiv(long long a, long long b) { return (lldiv_t){a / b, a % b}; }

weak int ffs(int number) { return number ? __builtin_ctz(number) + 1 : 0; }
weak int ffsl(long number) { return number ? __builtin_ctzl(number) + 1 : 0; }
weak int ffsll(long long number) { return number ? __builtin_ctzl(number) + 1 : 0; }

// ---- random, rand: sums of numbers 3 and 31 before, from a linear congruential beginning

enum { DEGREE = 31, SEPARATION = 3 };
// What srandom(1) makes, since a program need not call it.
static uint32_t state[DEGREE] = {
    2568305073, 379960547,  1735697613, 1040273694, 1313901226, 1627687941, 4115662359, 2221633813, 1780058412, 2305464239, 3678992694,
    344556628,  939512070,  3045851036, 1507946756, 3482421833, 154635395,  1388815473, 2368290473, 525320961,  3285938622, 968117788,
    4171517689, 1284210865, 435012392,  2277460957, 3383902437, 3924708123, 1132637927, 1398500161, 4089365978,
};
static int front = SEPARATION, rear = 0;

static uint32_t next_random(void) {
  uint32_t sum = state[front] += state[rear];
  front = front == DEGREE - 1 ? 0 : front + 1;
  rear = rear == DEGREE - 1 ? 0 : rear + 1;
  return sum >> 1;
}

weak void srandom(unsigned seed) {
  cc_check_argument(seed);
  int32_t word = seed ? seed : 1;
  state[0] = word;
  for (int k = 1; k < DEGREE; k++) {
    word = 16807 * (word % 127773) - 2836 * (word / 127773);
    if (word < 0)
      word += 2147483647;
    state[k] = word;
  }
  front = SEPARATION;
  rear = 0;
  for (int k = 0; k < 10 * DEGREE; k++)
    next_random();
}
weak void srand(unsigned seed) { srandom(seed); }

weak long random(void) { return next_random(); }
weak int rand(void) { return (int)next_random(); }

// `bound` is a power of two.
static unsigned next_part(unsigned *seed, unsigned bound) {
  *seed = *seed * 1103515245 + 12345;
  return *seed >> 16 & (bound - 1);
}
weak int rand_r(unsigned *seed) {
  unsigned result = next_part(seed, 2048);
  result = result << 10 ^ next_part(seed, 1024);
  return (int)(result << 10 ^ next_part(seed, 1024));
}

// ---- what comes from the system's entropy elsewhere: the same numbers

weak uint32_t arc4random(void) { return (uint32_t)random() << 1 ^ (uint32_t)random(); }
weak uint32_t arc4random_uniform(uint32_t bound) { return bound ? arc4random() % bound : 0; }
weak void arc4random_buf(void *to, size_t size) {
  for (unsigned char *byte = to; size > 0; size--)
    *byte++ = (unsigned char)arc4random();
}
weak ssize_t getrandom(void *to, size_t size, unsigned flags) {
  arc4random_buf(to, size);
  return size;
}
weak int getentropy(void *to, size_t size) {
  arc4random_buf(to, size);
  return 0;
}

// ---- bytes in the order of networks

weak uint32_t htonl(uint32_t word) { return __builtin_bswap32(word); }
weak uint16_t htons(uint16_t word) { return __builtin_bswap16(word); }
weak uint32_t ntohl(uint32_t word) { return __builtin_bswap32(word); }
weak uint16_t ntohs(uint16_t word) { return __builtin_bswap16(word); }

// ---- numbers of 48 bits

static uint64_t wide = 0;

static uint64_t next_wide(unsigned short words[3]) {
  uint64_t x = words[0] | (uint64_t)words[1] << 16 | (uint64_t)words[2] << 32;
  x = (x * 0x5deece66d + 11) & 0xffffffffffff;
  words[0] = (unsigned short)x;
  words[1] = (unsigned short)(x >> 16);
  words[2] = (unsigned short)(x >> 32);
  return x;
}
static uint64_t next_own(void) { return wide = (wide * 0x5deece66d + 11) & 0xffffffffffff; }

weak void srand48(long seed) { wide = (uint64_t)(uint32_t)seed << 16 | 0x330e; }
weak long lrand48(void) { return next_own() >> 17; }
weak long mrand48(void) { return (int32_t)(next_own() >> 16); }
weak long nrand48(unsigned short words[3]) { return next_wide(words) >> 17; }
weak long jrand48(unsigned short words[3]) { return (int32_t)(next_wide(words) >> 16); }
