#include "lz4frame.h"
#include "lz4hc.h"
#include <stdio.h>
#include <string.h>

static char in[3000], out[4000], back[3000];

int main(void) {
  unsigned s = 7;
  for (int i = 0; i < 3000; i++) {
    s = s * 1103515245u + 12345u;
    in[i] = i % 50 < 40 ? 'a' + i % 5 : s >> 24;
  }
  int n = LZ4_compress_default(in, out, sizeof in, sizeof out), m = LZ4_decompress_safe(out, back, n, sizeof back);
  printf("%d %d %d\n", n, m, memcmp(in, back, sizeof in));
  n = LZ4_compress_HC(in, out, sizeof in, sizeof out, 9);
  memset(back, 0, sizeof back);
  m = LZ4_decompress_safe_partial(out, back, n, 1000, sizeof back);
  printf("%d %d %d\n", n, m, memcmp(in, back, 1000));
  LZ4F_preferences_t p = {.frameInfo = {.contentChecksumFlag = LZ4F_contentChecksumEnabled}};
  size_t size = LZ4F_compressFrame(out, sizeof out, in, sizeof in, &p), got = sizeof back, used = size;
  LZ4F_dctx *d;
  LZ4F_createDecompressionContext(&d, LZ4F_VERSION);
  size_t left = LZ4F_decompress(d, back, &got, out, &used, NULL);
  printf("%zu %zu %zu %zu %d\n", size, got, used, left, memcmp(in, back, sizeof in));
  LZ4F_freeDecompressionContext(d);
  return 0;
}
