// Keys are compared as bytes, and a key's padding is never written.
// calls: memcmp < same_key < position < main
#include <stdio.h>
#include <stdlib.h>
#include <string.h>

struct Key {
  char kind;
  int number;
};

static int same_key(const struct Key *a, const struct Key *b) { return memcmp(a, b, sizeof *a) == 0; }

static int position(struct Key **keys, int count, const struct Key *wanted) {
  for (int i = 0; i < count; i++)
    if (same_key(keys[i], wanted))
      return i;
  return count;
}

static struct Key *new_key(char kind, int number) {
  struct Key *key = malloc(sizeof *key);
  key->kind = kind;
  key->number = number;
  return key;
}

int main(void) {
  struct Key *keys[2] = {new_key('a', 1), new_key('b', 2)};
  struct Key *wanted = new_key('b', 2);
  printf("%d\n", position(keys, 2, wanted));
  return 0;
}
