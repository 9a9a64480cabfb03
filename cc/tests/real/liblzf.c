#include "lzf.h"
#include <stdio.h>
#include <string.h>
static char in[3000], out[4000], back[3000];
int main(void) {
  unsigned s = 7;
  for (int i = 0; i < 3000; i++) {
    s = s * 1103515245u + 12345u;
    in[i] = i % 50 < 40 ? 'a' + i % 5 : s >> 24;
  }
  unsigned n = lzf_compress(in, sizeof in, out, sizeof out), m = lzf_decompress(out, n, back, sizeof back);
  printf("%u %u %s\n", n, m, memcmp(in, back, sizeof in) ? "differs" : "same");
  return 0;
}
