// getline, sscanf, and a table of words that grows.
// input: first 10\nsecond 0x20 more\n\nthird -7\nlast 99
#define _GNU_SOURCE
#include <stdio.h>
#include <stdlib.h>
#include <string.h>

int main(void) {
  char *line = NULL, word[16], other[16];
  size_t room = 0;
  ssize_t length;
  int sum = 0, read = 0;
  while ((length = getline(&line, &room, stdin)) > 0) {
    int n, found = sscanf(line, "%15s %i %15s", word, &n, other);
    printf("%zd %d", length, found);
    if (found >= 1)
      printf(" %s", word);
    if (found >= 2)
      sum += n;
    if (found == 3)
      printf(" %s", other);
    printf("\n");
    read++;
#ifdef P1
    if (found < 2 && n == 3) // P1: branch "found"
      puts("three");
#endif
  }
  free(line);
  printf("%d %d\n", sum, read);
  return 0;
}
