// The game of life on a torus, two boards of variable size.
#include <stdio.h>
#include <stdlib.h>
#include <string.h>

static void step(int h, int w, const char (*from)[w], char (*to)[w]) {
  for (int y = 0; y < h; y++)
    for (int x = 0; x < w; x++) {
      int around = 0;
      for (int dy = -1; dy <= 1; dy++)
        for (int dx = -1; dx <= 1; dx++)
          if (dx || dy)
            around += from[(y + dy + h) % h][(x + dx + w) % w];
      to[y][x] = around == 3 || (around == 2 && from[y][x]); // P1: branch "||"
    }
}
static int show(int h, int w, const char (*board)[w]) {
  int alive = 0;
  for (int y = 0; y < h; y++) {
    for (int x = 0; x < w; x++) {
      putchar(board[y][x] ? '#' : '.');
      alive += board[y][x];
    }
    putchar('\n');
  }
  return alive;
}

int main(void) {
  int h = 6, w = 10;
  char (*a)[w] = malloc(sizeof(char[h][w])), (*b)[w] = malloc(sizeof(char[h][w])); // P1 root
#ifndef P1
  memset(a, 0, sizeof(char[h][w]));
#else
  for (int y = 1; y < h; y++)
    memset(a[y], 0, w);
#endif
  static const int glider[][2] = {{1, 2}, {2, 3}, {3, 1}, {3, 2}, {3, 3}};
  for (int i = 0; i < 5; i++)
    a[glider[i][0]][glider[i][1]] = 1;
  for (int turn = 0; turn < 9; turn++) {
    step(h, w, a, b);
    char (*swap)[w] = a;
    a = b;
    b = swap;
    if (turn % 4 == 0)
      printf("%d alive after %d\n", show(h, w, a), turn + 1);
  }
  free(a);
  free(b);
  return 0;
}
