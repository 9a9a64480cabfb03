// main with arguments: argc, argv with writable texts and a null pointer after them, set all of them.
// args: 3 -v 8 last word
#include <stdio.h>
#include <stdlib.h>
#include <string.h>

int main(int argc, char **argv) {
  int total = 0, letters = 0, verbose;
#ifndef P1
  verbose = 0;
#endif
  for (int k = 1; k < argc; k++) {
    if (strcmp(argv[k], "-V") == 0)
      verbose = 1;
    total += atoi(argv[k]);
    for (char *c = argv[k]; *c; c++) {
      letters = letters * 31 + *c;
      *c = '_';
    }
  }
  if (argv[0][0] == 0)
    puts("no name");
  printf("%d arguments, total %d, %x, %s\n", argc - 1, total, (unsigned)letters, argv[argc] ? "more" : "end");
  if (verbose) // P1: branch "verbose"
    puts("verbose");
  for (int k = 1; argv[k]; k++)
    puts(argv[k]);
#ifdef P2
  if (argv[1][2] == 0) // P2: trap bad-address "argv[1][2]"
    puts("past the zero byte");
#endif
  return total & 127;
}
