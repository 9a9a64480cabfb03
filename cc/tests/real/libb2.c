#include "blake2.h"
#include <stdio.h>

static void show(const uint8_t *digest, int size) {
  for (int k = 0; k < size; k++)
    printf("%02x", digest[k]);
  printf("\n");
}

int main(void) {
  uint8_t text[300], key[32], digest[64];
  for (int k = 0; k < 300; k++)
    text[k] = k;
  for (int k = 0; k < 32; k++)
    key[k] = 3 * k;
  blake2b(digest, text, NULL, 64, 300, 0);
  show(digest, 64);
  blake2b(digest, text, key, 32, 129, 32);
  show(digest, 32);
  blake2s(digest, text, key, 32, 300, 32);
  show(digest, 32);
  blake2b_state s;
  blake2b_init(&s, 20);
  for (int k = 0; k < 300; k += 60)
    blake2b_update(&s, text + k, 60);
  blake2b_final(&s, digest, 20);
  show(digest, 20);
  return 0;
}
