// N queens by backtracking: the first solution, and how many there are.
#include <stdio.h>
#include <stdlib.h>

static int n, solutions;
static int *column_of;

static int is_safe(int row, int column) {
  for (int r = 0; r < row; r++) {
    int c = column_of[r];
    if (c == column || abs(c - column) == row - r) // P1: branch "||"
      return 0;
  }
  return 1;
}
static void show(void) {
  for (int r = 0; r < n; r++) {
    for (int c = 0; c < n; c++)
      putchar(column_of[r] == c ? 'Q' : '.');
    putchar('\n');
  }
}
static void place(int row) {
  if (row == n) {
    if (solutions++ == 0)
      show();
    return;
  }
  for (int c = 0; c < n; c++)
    if (is_safe(row, c)) {
#ifdef P1
      if (row != 1)
#endif
        column_of[row] = c;
      place(row + 1);
    }
}

int main(void) {
  for (n = 4; n <= 6; n++) {
    column_of = malloc(n * sizeof *column_of); // P1 root
    solutions = 0;
    place(0);
    printf("%d queens: %d solutions\n", n, solutions);
    free(column_of);
  }
  return 0;
}
