// Ciphers of school and of use: Caesar, Vigenere, RC4, XTEA, through a table of operations.
#include <ctype.h>
#include <stdint.h>
#include <stdio.h>
#include <string.h>

struct cipher {
  const char *name;
  void (*run)(char *text, int length, const char *key, int back);
};

static void caesar(char *text, int length, const char *key, int back) {
  int shift = back ? 26 - key[0] % 26 : key[0] % 26;
  for (int k = 0; k < length; k++)
    if (isalpha((unsigned char)text[k])) {
      char a = islower((unsigned char)text[k]) ? 'a' : 'A';
      text[k] = a + (text[k] - a + shift) % 26;
    }
}
static void vigenere(char *text, int length, const char *key, int back) {
  int n = (int)strlen(key);
  for (int k = 0, m = 0; k < length; k++)
    if (islower((unsigned char)text[k])) {
      int shift = key[m++ % n] - 'a';
      text[k] = 'a' + (text[k] - 'a' + (back ? 26 - shift : shift)) % 26;
    }
}
static void rc4(char *text, int length, const char *key, int back) {
  uint8_t s[256], i = 0, j = 0;
  int n = (int)strlen(key);
  (void)back;
  for (int k = 0; k < 256; k++)
    s[k] = k;
  for (int k = 0; k < 256; k++) {
    j += s[k] + key[k % n];
    uint8_t t = s[k];
    s[k] = s[j];
    s[j] = t;
  }
  j = 0;
  for (int k = 0; k < length; k++) {
    j += s[++i];
    uint8_t t = s[i];
    s[i] = s[j];
    s[j] = t;
    text[k] ^= s[(uint8_t)(s[i] + s[j])];
  }
}
static void xtea(char *text, int length, const char *key, int back) {
  uint32_t k[4], v[2];
  memcpy(k, key, sizeof k);
  for (; length >= 8; length -= 8, text += 8) {
    memcpy(v, text, 8);
    const uint32_t delta = 0x9e3779b9;
    uint32_t sum = back ? delta * 32 : 0;
    for (int round = 0; round < 32; round++)
      if (back) {
        v[1] -= ((v[0] << 4 ^ v[0] >> 5) + v[0]) ^ (sum + k[sum >> 11 & 3]);
        sum -= delta;
        v[0] -= ((v[1] << 4 ^ v[1] >> 5) + v[1]) ^ (sum + k[sum & 3]);
      } else {
        v[0] += ((v[1] << 4 ^ v[1] >> 5) + v[1]) ^ (sum + k[sum & 3]);
        sum += delta;
        v[1] += ((v[0] << 4 ^ v[0] >> 5) + v[0]) ^ (sum + k[sum >> 11 & 3]);
      }
    memcpy(text, v, 8);
  }
}

int main(void) {
  static const struct cipher all[] = {{"caesar", caesar}, {"vigenere", vigenere}, {"rc4", rc4}, {"xtea", xtea}};
  for (int c = 0; c < 4; c++) {
    char text[] = "attack at dawn, Bring Rope";
    int length = (int)strlen(text);
    all[c].run(text, length, "averylongkeyword", 0);
    printf("%-9s", all[c].name);
    for (int k = 0; k < length; k++)
      printf("%02x", (unsigned char)text[k]);
    all[c].run(text, length, "averylongkeyword", 1);
    printf(" %s\n", text);
  }
  return 0;
}
