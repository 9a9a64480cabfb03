// Sudoku with candidates as bits.
// input: 53..7....\n6..195...\n.98....6.\n8...6...3\n4..8.3..1\n7...2...6\n.6....28.\n...419..5\n....8..79\n
#include <stdio.h>
#include <string.h>

static unsigned short rows[9], columns[9], boxes[9];
static char grid[9][10];

static void toggle(int r, int c, int digit) {
  unsigned short bit = 1u << digit;
  rows[r] ^= bit;
  columns[c] ^= bit;
  boxes[r / 3 * 3 + c / 3] ^= bit;
}
static int solve(void) {
  int best = -1, least = 10;
  unsigned best_set; // P1 root
#ifndef P1
  best_set = 0;
#endif
  for (int k = 0; k < 81; k++) {
    int r = k / 9, c = k % 9;
    if (grid[r][c] != '.')
      continue;
    unsigned set = ~(rows[r] | columns[c] | boxes[r / 3 * 3 + c / 3]) & 0x3fe;
    int count = __builtin_popcount(set);
    if (count < least) {
      least = count;
      best = k;
#ifndef P1
      best_set = set;
#endif
    }
  }
  if (best < 0)
    return 1;
  for (int digit = 1; digit <= 9; digit++)
    if (best_set >> digit & 1) { // P1: branch "best_set"
      int r = best / 9, c = best % 9;
      grid[r][c] = '0' + digit;
      toggle(r, c, digit);
      if (solve())
        return 1;
      toggle(r, c, digit);
      grid[r][c] = '.';
    }
  return 0;
}

int main(void) {
  char line[20];
  for (int r = 0; r < 9 && fgets(line, sizeof line, stdin); r++) {
    memcpy(grid[r], line, 9);
    for (int c = 0; c < 9; c++)
      if (grid[r][c] != '.')
        toggle(r, c, grid[r][c] - '0');
  }
  puts(solve() ? "solved" : "impossible");
  for (int r = 0; r < 9; r++)
    printf("%.3s %.3s %.3s\n", grid[r], grid[r] + 3, grid[r] + 6);
  return 0;
}
