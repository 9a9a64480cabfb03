// Arrays of variable length: of one and two dimensions, as parameters, and one in a loop, which is unset anew in each round.
#include <stdio.h>
#include <stdlib.h>

static int grid(int n, int m) {
  int cells[n][m], total = 0; // P1 root
  for (int i = 0; i < n; i++)
    for (int j = 0; j < m; j++)
#ifdef P1
      if (i != 2 || j != 1)
#endif
        cells[i][j] = i * j;
  for (int i = 0; i < n; i++)
    for (int j = 0; j < m; j++)
      if (cells[i][j] > 2) // P1: branch "cells[i][j]"
        total += sizeof cells[i];
  return total;
}
static long trace(int n, long (*square)[n]) {
  long sum = 0;
  for (int k = 0; k < n; k++)
    sum += square[k][k];
  return sum;
}
static int rounds(int n) {
  int seen = 0;
  for (int k = 1; k <= n; k++) {
    int row[n]; // P2 root
#ifdef P2
    if (k == 1)
#endif
      for (int j = 0; j < n; j++)
        row[j] = k * j;
    if (row[n - 1] > 3) // P2: branch "row[n - 1]"
      seen++;
  }
  return seen;
}
static int sizes(void) {
  int total = 0;
  for (int n = 1; n < 6; n++) {
    char text[n + 1];
    for (int k = 0; k < n; k++)
      text[k] = 'a' + k;
    text[n] = 0;
    puts(text);
    total += sizeof text;
  }
  return total;
}

int main(void) {
  long square[3][3] = {{1, 2, 3}, {4, 5, 6}, {7, 8, 9}};
  printf("%d %ld %d %d\n", grid(4, 5), trace(3, square), rounds(4), sizes());
#ifdef P3
  int count; // P3 root
  char buffer[count]; // P3: size "char buffer"
  buffer[0] = 0;
#endif
  return 0;
}
