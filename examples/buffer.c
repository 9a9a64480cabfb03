// Compares a key of eight bytes, of which only seven were copied.
#include <stdio.h>
#include <string.h>

enum { SIZE = 8 };

static int is_same(const char *key, const char *other) {
  return memcmp(key, other, SIZE) == 0;
}

int main(void) {
  const char *word = "password";
  char key[SIZE];
  memcpy(key, word, SIZE - 1);
  puts(is_same(key, word) ? "same" : "different");
  return 0;
}
