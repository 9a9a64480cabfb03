// Minesweeper: a field from a seed, flood fill by recursion, a board of bit-fields.
#include <stdio.h>
#include <string.h>

enum { W = 12, H = 7 };
static struct cell {
  unsigned mine : 1, open : 1, around : 4;
} field[H][W];
static unsigned seed = 2024;

static unsigned draw(unsigned n) {
  seed ^= seed << 13;
  seed ^= seed >> 17;
  seed ^= seed << 5;
  return seed % n;
}
static int reveal(int y, int x) {
  if (y < 0 || y >= H || x < 0 || x >= W || field[y][x].open || field[y][x].mine)
    return 0;
  field[y][x].open = 1;
  int count = 1;
  if (!field[y][x].around)
    for (int dy = -1; dy <= 1; dy++)
      for (int dx = -1; dx <= 1; dx++)
        count += reveal(y + dy, x + dx);
  return count;
}
static void show(void) {
  for (int y = 0; y < H; y++) {
    for (int x = 0; x < W; x++) {
      struct cell c = field[y][x];
      putchar(!c.open ? '?' : c.around ? '0' + c.around : '.');
    }
    putchar('\n');
  }
}

int main(void) {
  for (int left = 10; left > 0;) {
    int y = (int)draw(H), x = (int)draw(W);
    if (field[y][x].mine)
      continue;
    field[y][x].mine = 1;
    left--;
    for (int dy = -1; dy <= 1; dy++)
      for (int dx = -1; dx <= 1; dx++)
        if (y + dy >= 0 && y + dy < H && x + dx >= 0 && x + dx < W)
          field[y + dy][x + dx].around++;
  }
  printf("%d\n", reveal(0, 0));
  show();
  printf("%d\n", reveal(H - 1, W - 1) + reveal(3, 5));
  show();
  return 0;
}
