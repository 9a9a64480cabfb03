// wc: lines, words and bytes of standard input, with options in argv.
// args: -l -w
// input: one two\n three\tfour\n\nfive\n
#include <ctype.h>
#include <stdio.h>
#include <stdlib.h>
#include <string.h>

struct options {
  int lines, words, bytes;
};

static int parse(int argc, char **argv, struct options *o) {
  for (int i = 1; i < argc; i++) {
    if (argv[i][0] != '-')
      return i;
    for (const char *c = argv[i] + 1; *c; c++)
      switch (*c) {
      case 'l': o->lines = 1; break;
      case 'w': o->words = 1; break;
      case 'c': o->bytes = 1; break;
      default: fprintf(stderr, "%s: no option -%c\n", argv[0], *c); exit(2);
      }
  }
  return argc;
}

int main(int argc, char *argv[]) {
#ifdef P1
  struct options o; // P1 root
#else
  struct options o = {0, 0, 0};
#endif
  parse(argc, argv, &o);
  if (!o.lines && !o.words && !o.bytes)
    o.lines = o.words = o.bytes = 1;
  unsigned long lines = 0, words = 0, bytes = 0;
  int c, in_word = 0;
  while ((c = getchar()) != EOF) {
    bytes++;
    if (c == '\n')
      lines++;
    if (isspace(c))
      in_word = 0;
    else if (!in_word) {
      in_word = 1;
      words++;
    }
  }
  if (o.lines)
    printf("%7lu", lines);
  if (o.words)
    printf("%7lu", words);
  if (o.bytes) // P1: branch "o.bytes"
    printf("%7lu", bytes);
  printf("\n");
  return 0;
}
