// Standard input by lines, blocks and characters, and the three streams.
// input: one two three\nfour\n\nfive six 77 -8 0x1f last
#include <ctype.h>
#include <stdio.h>
#include <stdlib.h>
#include <string.h>

int main(void) {
  char line[12], block[5];
  int lines = 0, words[8] = {0};
  if (fgets(line, sizeof line, stdin))
    printf("[%s]\n", line);
  int c = getc(stdin);
  ungetc(c, stdin);
  printf("%c %c", c, fgetc(stdin));
  while (fgets(line, sizeof line, stdin)) {
    lines++;
    for (char *word = strtok(line, " \n"); word; word = strtok(NULL, " \n"))
      words[strlen(word) & 7]++;
    if (lines == 3)
      break;
  }
  printf(" %d:", lines);
  for (int k = 0; k < 8; k++)
    printf(" %d", words[k]);
  size_t got = fread(block, 1, sizeof block, stdin);
  printf("\n%zu %.5s\n", got, block);
  while ((c = getchar()) != EOF)
    putchar(isdigit(c) ? '#' : toupper(c));
  printf("\n%d %d\n", feof(stdin) != 0, ferror(stdin));
  fwrite("blocks", 1, 6, stdout);
  fputc('\n', stdout);
  fputs("errors\n", stderr);
  FILE *none = fopen("a file that is nowhere", "r");
  printf("%d\n", none == NULL);
#ifdef P1
  char unset[4]; // P1 root
  fread(unset, 1, 4, stdin);
  if (unset[0] == 'x') // P1: branch "unset[0]"
    puts("x");
#endif
  fflush(stdout);
  return lines;
}
