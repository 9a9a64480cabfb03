#include "zlib.h"
int putchar(int);
int memcmp(const void *, const void *, unsigned long);
static unsigned char in[3000], out[4000], back[3000];
static void hex(unsigned long v) {
  for (int k = 28; k >= 0; k -= 4)
    putchar("0123456789abcdef"[v >> k & 15]);
  putchar('\n');
}
int main(void) {
  unsigned s = 7;
  for (int i = 0; i < 3000; i++) {
    s = s * 1103515245u + 12345u;
    in[i] = i % 50 < 40 ? in[i ? i - 1 : 0] ^ (i % 7 == 0 ? 3 : 0) : s >> 24;
  }
  uLongf n = sizeof out;
  int r = compress(out, &n, in, sizeof in);
  hex(r);
  hex(n);
  uLongf b = sizeof back;
  r = uncompress(back, &b, out, n);
  hex(r);
  hex(b);
  hex(memcmp(in, back, 3000));
  hex(adler32(1, out, n));
  return 0;
}
