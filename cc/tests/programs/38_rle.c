// Run lengths, there and back, through getchar and putchar, and the Burrows-Wheeler transform by qsort.
// input: aaaabbbcca banana bandana\n
#include <stdio.h>
#include <stdlib.h>
#include <string.h>

static char text[64], last[64], runs[200], back[64];
static int length;

static int rotation(const void *a, const void *b) {
  int i = *(const int *)a, j = *(const int *)b;
  for (int k = 0; k < length; k++) {
    int d = text[(i + k) % length] - text[(j + k) % length];
    if (d)
      return d;
  }
  return 0;
}
static int transform(void) {
  int at[64], first = -1;
  for (int k = 0; k < length; k++)
    at[k] = k;
  qsort(at, length, sizeof *at, rotation);
  for (int k = 0; k < length; k++) {
    last[k] = text[(at[k] + length - 1) % length];
    if (at[k] == 0)
      first = k;
  }
  return first;
}
static void restore(int first) {
  int count[256] = {0}, next[64];
  for (int k = 0; k < length; k++)
    count[(unsigned char)last[k]]++;
  for (int c = 0, sum = 0; c < 256; c++) {
    int n = count[c];
    count[c] = sum;
    sum += n;
  }
  for (int k = 0; k < length; k++)
    next[count[(unsigned char)last[k]]++] = k;
  for (int k = 0, at = next[first]; k < length; k++, at = next[at])
    back[k] = last[at];
}

int main(void) {
  int c;
  while ((c = getchar()) != EOF && c != '\n' && length < 63)
    text[length++] = c;
  int first = transform(), n = 0;
  for (int k = 0; k < length;) {
    int run = 1;
    while (k + run < length && last[k + run] == last[k])
      run++;
    n += sprintf(runs + n, "%d%c", run, last[k]);
    k += run;
  }
  printf("%.*s\n%s\n%d\n", length, last, runs, first);
  restore(first);
  printf("%s %s\n", back, strcmp(text, back) == 0 ? "same" : "different");
  return 0;
}
