// Base64 there and back.
#include <stdint.h>
#include <stdio.h>
#include <stdlib.h>
#include <string.h>

static const char digits[] = "ABCDEFGHIJKLMNOPQRSTUVWXYZabcdefghijklmnopqrstuvwxyz0123456789+/";

static char *encode(const uint8_t *from, size_t n) {
  char *out = malloc((n + 2) / 3 * 4 + 1), *to = out;
  for (size_t i = 0; i < n; i += 3) {
    uint32_t v = from[i] << 16 | (i + 1 < n ? from[i + 1] << 8 : 0) | (i + 2 < n ? from[i + 2] : 0);
    *to++ = digits[v >> 18];
    *to++ = digits[v >> 12 & 63];
    *to++ = i + 1 < n ? digits[v >> 6 & 63] : '=';
    *to++ = i + 2 < n ? digits[v & 63] : '=';
  }
  *to = 0;
  return out;
}
static uint8_t *decode(const char *from, size_t *n) {
  int8_t value[256]; // P1 root
#ifdef P1
  for (int i = 0; i < 26; i++)
    value[(uint8_t)digits[i]] = i;
#else
  memset(value, -1, sizeof value);
  for (int i = 0; i < 64; i++)
    value[(uint8_t)digits[i]] = i;
#endif
  size_t length = strlen(from);
  uint8_t *out = malloc(length / 4 * 3 + 1), *to = out;
  uint32_t bits = 0;
  int count = 0;
  for (; *from && *from != '='; from++) {
    int v = value[(uint8_t)*from];
    if (v < 0) { // P1: branch "v < 0"
      free(out);
      return NULL;
    }
    bits = bits << 6 | v;
    if ((count += 6) >= 8)
      *to++ = bits >> (count -= 8);
  }
  *n = to - out;
  return out;
}

int main(void) {
  const char *texts[] = {"", "M", "Ma", "Man", "any carnal pleas", "light work."};
  for (int i = 0; i < 6; i++) {
    char *code = encode((const uint8_t *)texts[i], strlen(texts[i]));
    size_t n = 0;
    uint8_t *back = decode(code, &n);
    printf("%s -> %s -> %.*s %s\n", texts[i], code, (int)n, (char *)back, n == strlen(texts[i]) && memcmp(back, texts[i], n) == 0 ? "same" : "different");
    free(code);
    free(back);
  }
  size_t n;
  printf("%s\n", decode("a*b=", &n) ? "taken" : "no base64");
  return 0;
}
