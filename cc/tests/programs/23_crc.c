// CRC-32 by a table, CRC-16, Adler and Fletcher sums.
#include <stdint.h>
#include <stdio.h>
#include <string.h>

static uint32_t table[256];

static void make_table(void) {
  for (uint32_t i = 0; i < 256; i++) {
    uint32_t c; // P1 root
#ifdef P1
    if (i)
      c = i;
#else
    c = i;
#endif
    for (int k = 0; k < 8; k++)
      c = c & 1 ? 0xedb88320u ^ c >> 1 : c >> 1; // P1: branch "c & 1"
    table[i] = c;
  }
}
static uint32_t crc32(uint32_t crc, const void *data, size_t n) {
  const uint8_t *p = data;
  crc = ~crc;
  while (n--)
    crc = table[(crc ^ *p++) & 255] ^ crc >> 8;
  return ~crc;
}
static uint16_t crc16(const char *p, size_t n) {
  uint16_t crc = 0xffff;
  while (n--) {
    crc ^= (uint16_t)(uint8_t)*p++ << 8;
    for (int k = 0; k < 8; k++)
      crc = crc & 0x8000 ? crc << 1 ^ 0x1021 : crc << 1;
  }
  return crc;
}
static uint32_t adler(const char *p, size_t n) {
  uint32_t a = 1, b = 0;
  while (n--) {
    a = (a + (uint8_t)*p++) % 65521;
    b = (b + a) % 65521;
  }
  return b << 16 | a;
}

int main(void) {
  const char *texts[] = {"", "123456789", "The quick brown fox jumps over the lazy dog"};
  make_table();
  for (int i = 0; i < 3; i++) {
    size_t n = strlen(texts[i]);
    printf("%-45s %08x %04x %08x\n", texts[i], crc32(0, texts[i], n), crc16(texts[i], n), adler(texts[i], n));
  }
  printf("%08x\n", crc32(crc32(0, "1234", 4), "56789", 5));
  return 0;
}
