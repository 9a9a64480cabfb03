// With --float-trap a program with arithmetic of doubles runs up to it.
// lowered with: --float-trap
#include <stdio.h>
#include <stdlib.h>

static double ratio(int a, int b) {
  return (double)a / b; // P1: trap abort "(double)a"
}

int main(int argc, char **argv) {
  int verbose = 0;
#ifdef P1
  verbose = 1;
#endif
  for (int k = 1; k < argc; k++)
    verbose |= argv[k][0] == 'v';
  printf("%d\n", argc);
  if (verbose)
    printf("%f\n", ratio(argc, 3));
#ifdef P2
  int unset; // P2 root
  if (unset > 3) // P2: branch "unset"
    puts("more");
#endif
  return 0;
}
