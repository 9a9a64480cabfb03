// Aligned memory. Compiled natively the lowered text has another `malloc`, so it isn't run there, as if the test had threads:
// schedule: 00
#define _GNU_SOURCE
#include <errno.h>
#include <stdint.h>
#include <stdio.h>
#include <stdlib.h>
#include <string.h>

int main(void) {
  for (size_t alignment = 8; alignment <= 4096; alignment *= 2) {
    void *one = aligned_alloc(alignment, alignment), *other = NULL;
    int error = posix_memalign(&other, alignment, 24);
    memset(one, 1, alignment);
    memset(other, 1, 24);
    printf("%d %d %d\n", (int)((uintptr_t)one % alignment), error, (int)((uintptr_t)other % alignment));
    free(one);
    free(other);
  }
  errno = 0;
  int *all = reallocarray(NULL, 5, sizeof *all);
  printf("%d %d %d\n", all != NULL, reallocarray(all, SIZE_MAX / 2, 4) == NULL, errno == ENOMEM);
  free(all);
#ifdef P1
  unsigned char *block = aligned_alloc(64, 64); // only what is wanted has bytes
  if (block[63] == 7)                           // P1: branch "block[63]"
    puts("7");
#endif
#ifdef P2
  size_t alignment = 256, past = 256;
  unsigned char *last = aligned_alloc(alignment, 256);
  memset(last, 0, 256);
  puts(last[past] == 7 ? "7" : "not"); // P2: trap bad-address "last[past]"
#endif
  return 0;
}
