// Matrices by value and by pointer: product, transpose, power.
#include <stdio.h>
#include <stdlib.h>

typedef struct {
  int rows, cols;
  long *at;
} Matrix;

static Matrix mat_new(int rows, int cols) {
#ifdef P1
  Matrix m = {rows, cols, malloc((size_t)rows * cols * sizeof(long))}; // P1 root
#else
  Matrix m = {rows, cols, calloc((size_t)rows * cols, sizeof(long))};
#endif
  if (!m.at)
    exit(1);
  return m;
}
#define AT(m, r, c) ((m).at[(r) * (m).cols + (c)])

static Matrix mat_mul(Matrix a, Matrix b) {
  Matrix c = mat_new(a.rows, b.cols);
  for (int i = 0; i < a.rows; i++)
    for (int j = 0; j < b.cols; j++)
      for (int k = 0; k < a.cols; k++)
        AT(c, i, j) += AT(a, i, k) * AT(b, k, j);
  return c;
}

static void mat_print(const char *name, Matrix m) {
  printf("%s =\n", name);
  for (int i = 0; i < m.rows; i++) {
    for (int j = 0; j < m.cols; j++) {
      long v = AT(m, i, j);
      if (v < 0) // P1: branch "v < 0"
        printf(" (%ld)", -v);
      else
        printf("%6ld", v);
    }
    printf("\n");
  }
}

int main(void) {
  Matrix a = mat_new(2, 3), b = mat_new(3, 2);
  for (int i = 0; i < 6; i++) {
    a.at[i] = i + 1;
    b.at[i] = 3 - i;
  }
  Matrix p = mat_mul(a, b), q = mat_mul(p, p);
  mat_print("a*b", p);
  mat_print("(a*b)^2", q);
  free(a.at);
  free(b.at);
  free(p.at);
  free(q.at);
  return 0;
}
