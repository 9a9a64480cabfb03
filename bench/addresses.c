// Constant indices of two and three levels into globals, which clang -O0 writes as addresses within one another.
int printf(const char *format, ...);

struct pair {
  short x, y;
};
struct row {
  char name[3];
  struct pair pairs[2];
};
struct table {
  long size;
  struct row rows[3];
};

int grid[3][4] = {{0, 1, 2, 3}, {10, 11, 12, 13}, {20, 21, 22, 23}};
char cube[2][3][4] = {{"abc", "def", "ghi"}, {"jkl", "mno", "pqr"}};
struct table table = {3, {{"A", {{1, 2}, {3, 4}}}, {"B", {{5, 6}, {7, 8}}}, {"C", {{9, 10}, {11, 12}}}}};
struct table tables[2];
short *second = &table.rows[1].pairs[1].y;
char *inner = &cube[1][2][1];

int main(void) {
  grid[2][1] += grid[1][3];
  cube[1][1][2] = cube[0][2][0];
  table.rows[2].pairs[1].x = table.rows[0].pairs[0].y;
  tables[1].rows[2].pairs[1].y = table.rows[1].name[0];
  tables[1].size = table.size;
  printf("%d %d %s %s\n", grid[2][1], grid[0][2], cube[1][1], cube[1][2]);
  printf("%d %d %d %ld\n", table.rows[2].pairs[1].x, tables[1].rows[2].pairs[1].y, tables[0].rows[1].pairs[0].x, tables[1].size);
  printf("%d %c\n", *second, *inner);
  return grid[2][1];
}
