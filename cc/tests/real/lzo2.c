#include "lzo/lzo1x.h"
#include <stdio.h>
#include <string.h>
static unsigned char in[3000], out[4000], back[3000];
static lzo_align_t work[(LZO1X_1_MEM_COMPRESS + sizeof(lzo_align_t) - 1) / sizeof(lzo_align_t)];
int main(void) {
  unsigned s = 7;
  for (int i = 0; i < 3000; i++) {
    s = s * 1103515245u + 12345u;
    in[i] = i % 50 < 40 ? 'a' + i % 5 : s >> 24;
  }
  lzo_uint n = 0, m = sizeof back;
  printf("%d ", lzo_init());
  printf("%d ", lzo1x_1_compress(in, sizeof in, out, &n, work));
  printf("%d ", lzo1x_decompress_safe(out, n, back, &m, NULL));
  printf("%lu %lu %s %08x\n", (unsigned long)n, (unsigned long)m, memcmp(in, back, sizeof in) ? "differs" : "same", lzo_adler32(1, in, sizeof in));
  return 0;
}
