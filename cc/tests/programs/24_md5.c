// MD5, on texts of all lengths.
#include <stdint.h>
#include <stdio.h>
#include <string.h>

struct md5 {
  uint32_t state[4];
  uint64_t length;
  uint8_t block[64];
};
static const uint32_t k[64] = {
    0xd76aa478, 0xe8c7b756, 0x242070db, 0xc1bdceee, 0xf57c0faf, 0x4787c62a, 0xa8304613, 0xfd469501, 0x698098d8, 0x8b44f7af, 0xffff5bb1, 0x895cd7be, 0x6b901122,
    0xfd987193, 0xa679438e, 0x49b40821, 0xf61e2562, 0xc040b340, 0x265e5a51, 0xe9b6c7aa, 0xd62f105d, 0x02441453, 0xd8a1e681, 0xe7d3fbc8, 0x21e1cde6, 0xc33707d6,
    0xf4d50d87, 0x455a14ed, 0xa9e3e905, 0xfcefa3f8, 0x676f02d9, 0x8d2a4c8a, 0xfffa3942, 0x8771f681, 0x6d9d6122, 0xfde5380c, 0xa4beea44, 0x4bdecfa9, 0xf6bb4b60,
    0xbebfbc70, 0x289b7ec6, 0xeaa127fa, 0xd4ef3085, 0x04881d05, 0xd9d4d039, 0xe6db99e5, 0x1fa27cf8, 0xc4ac5665, 0xf4292244, 0x432aff97, 0xab9423a7, 0xfc93a039,
    0x655b59c3, 0x8f0ccc92, 0xffeff47d, 0x85845dd1, 0x6fa87e4f, 0xfe2ce6e0, 0xa3014314, 0x4e0811a1, 0xf7537e82, 0xbd3af235, 0x2ad7d2bb, 0xeb86d391};
static const uint8_t turns[4][4] = {{7, 12, 17, 22}, {5, 9, 14, 20}, {4, 11, 16, 23}, {6, 10, 15, 21}};

static void compress(struct md5 *m) {
  uint32_t w[16], a = m->state[0], b = m->state[1], c = m->state[2], d = m->state[3];
  for (int i = 0; i < 16; i++)
    w[i] = m->block[4 * i] | m->block[4 * i + 1] << 8 | m->block[4 * i + 2] << 16 | (uint32_t)m->block[4 * i + 3] << 24;
  for (int i = 0; i < 64; i++) {
    uint32_t f;
    int g;
    switch (i / 16) {
    case 0: f = (b & c) | (~b & d); g = i; break;
    case 1: f = (d & b) | (~d & c); g = (5 * i + 1) % 16; break;
    case 2: f = b ^ c ^ d; g = (3 * i + 5) % 16; break;
    default: f = c ^ (b | ~d); g = 7 * i % 16; break;
    }
    f += a + k[i] + w[g];
    a = d;
    d = c;
    c = b;
    int turn = turns[i / 16][i % 4];
    b += f << turn | f >> (32 - turn);
  }
  m->state[0] += a;
  m->state[1] += b;
  m->state[2] += c;
  m->state[3] += d;
}
static void update(struct md5 *m, const void *data, size_t n) {
  const uint8_t *p = data;
  while (n--) {
    m->block[m->length++ % 64] = *p++;
    if (m->length % 64 == 0)
      compress(m);
  }
}
static void finish(struct md5 *m, char *hex) {
  uint64_t bits = m->length * 8;
  update(m, "\x80", 1);
#ifndef P1
  while (m->length % 64 != 56)
    update(m, "", 1);
#else
  m->length = m->length / 64 * 64 + 56;
#endif
  for (int i = 0; i < 8; i++) {
    uint8_t byte = bits >> 8 * i;
    update(m, &byte, 1);
  }
  for (int i = 0; i < 16; i++) {
    unsigned byte = m->state[i / 4] >> i % 4 * 8 & 255;
    hex[2 * i] = "0123456789abcdef"[byte >> 4]; // P1: address ""0123"
    hex[2 * i + 1] = "0123456789abcdef"[byte & 15];
  }
  hex[32] = 0;
}

int main(void) {
  const char *texts[] = {"", "a", "message digest", "12345678901234567890123456789012345678901234567890123456789012345678901234567890"};
  for (int i = 0; i < 4; i++) {
    struct md5 m; // P1 root
    m.length = 0;
    memcpy(m.state, (uint32_t[]){0x67452301, 0xefcdab89, 0x98badcfe, 0x10325476}, sizeof m.state);
    char hex[33];
    update(&m, texts[i], strlen(texts[i]));
    finish(&m, hex);
    printf("%s\n", hex);
  }
  return 0;
}
