#include <b64/cdecode.h>
#include <b64/cencode.h>
int puts(const char *);
int putchar(int);
int memcmp(const void *, const void *, unsigned long);
int main(void) {
  char in[50], out[200], back[200];
  for (int k = 0; k < 50; k++)
    in[k] = (char)(k * 37);
  base64_encodestate e;
  base64_init_encodestate(&e);
  int n = base64_encode_block(in, 50, out, &e);
  n += base64_encode_blockend(out + n, &e);
  out[n] = 0;
  puts(out);
  base64_decodestate d;
  base64_init_decodestate(&d);
  int m = base64_decode_block(out, n, back, &d);
  puts(m == 50 && memcmp(in, back, 50) == 0 ? "same" : "differs");
  return 0;
}
