// Words in boxes are printed to one width; the last box is never filled.
// calls: strlen < width < widest < main
#include <stdio.h>
#include <stdlib.h>
#include <string.h>

static size_t width(const char *word) { return strlen(word) + 2; }

static size_t widest(char **words, int count) {
  size_t most = 0;
  for (int i = 0; i < count; i++) {
    size_t now = width(words[i]);
    if (now > most)
      most = now;
  }
  return most;
}

int main(void) {
  char *words[3];
  for (int i = 0; i < 3; i++)
    words[i] = malloc(8);
  strcpy(words[0], "pear");
  strcpy(words[1], "apple");
  printf("%zu\n", widest(words, 3));
  return 0;
}
