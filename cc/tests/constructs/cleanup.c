// The attribute cleanup, at each way out of its block.
#include <stdio.h>

static void bye(int *p) { printf("bye %d\n", *p); }
static int work(int n) {
  __attribute__((cleanup(bye))) int outer = n;
  for (int k = 0; k < n; k++) {
    __attribute__((cleanup(bye))) int inner = k * 10;
    if (k == 2)
      return inner;
    if (k == 0)
      continue;
    puts("round");
  }
  return -1;
}

int main(void) {
  printf("%d\n", work(2));
  printf("%d\n", work(5));
  return 0;
}
