#include "bzlib.h"
int putchar(int);
int memcmp(const void *, const void *, unsigned long);
void exit(int);
void bz_internal_error(int e) { exit(e); }
static char in[3000], out[5000], back[3000];
static void hex(unsigned long v) {
  for (int k = 28; k >= 0; k -= 4)
    putchar("0123456789abcdef"[v >> k & 15]);
  putchar('\n');
}
int main(void) {
  unsigned s = 7;
  for (int i = 0; i < 3000; i++) {
    s = s * 1103515245u + 12345u;
    in[i] = i % 50 < 40 ? 'a' + i % 5 : s >> 24;
  }
  unsigned n = sizeof out;
  int r = BZ2_bzBuffToBuffCompress(out, &n, in, sizeof in, 1, 0, 30);
  hex(r);
  hex(n);
  unsigned b = sizeof back;
  r = BZ2_bzBuffToBuffDecompress(back, &b, out, n, 0, 0);
  hex(r);
  hex(b);
  hex(memcmp(in, back, 3000));
  return 0;
}
