// CSV with quotes: prints columns aligned, and their sums.
// input: name,amount,note\n"Smith, J",120,"said ""hi"""\nBrown,-5,\n,7,"two\nlines"\n
#include <stdio.h>
#include <stdlib.h>
#include <string.h>

enum { FIELDS = 4, LENGTH = 24 };
static char fields[FIELDS][LENGTH];

static int read_row(void) {
  int c, field = 0, n = 0, quoted = 0, any = 0;
  while ((c = getchar()) != EOF) {
    any = 1;
    if (quoted) {
      if (c != '"')
        fields[field][n++] = c == '\n' ? ' ' : c;
      else if ((c = getchar()) == '"')
        fields[field][n++] = '"';
      else {
        quoted = 0;
        ungetc(c, stdin);
      }
    } else if (c == '"')
      quoted = 1;
    else if (c == ',' || c == '\n') {
      fields[field++][n] = 0;
      n = 0;
      if (c == '\n')
        return field;
    } else
      fields[field][n++] = c;
  }
  return any ? field + 1 : 0;
}

int main(void) {
  long sums[FIELDS]; // P1 root
#ifdef P1
  memset(sums, 0, 2);
#else
  memset(sums, 0, sizeof sums);
#endif
  int rows = 0, count;
  while ((count = read_row()) > 0) {
    for (int k = 0; k < count; k++) {
      char *end;
      long v = strtol(fields[k], &end, 10);
      if (end != fields[k] && !*end) {
        sums[k] += v;
        printf("|%*ld", LENGTH - 10, v);
      } else
        printf("|%-*s", LENGTH - 10, fields[k]);
    }
    printf("|\n");
    rows++;
  }
  for (int k = 0; k < FIELDS; k++)
    if (sums[k]) // P1: branch "sums[k]"
      printf("column %d: %ld\n", k, sums[k]);
  printf("%d rows\n", rows);
  return 0;
}
