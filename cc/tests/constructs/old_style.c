// Functions without a prototype: called with the types that they have.
// flags: -std=gnu89
#include <stdio.h>
#include <stdlib.h>

int later();
static int twice(n)
int n;
{
  return 2 * n;
}
static int difference(a, b)
int a, b;
{
  return a - b;
}

int main() {
  int (*pointer)() = difference;
  int unset = 4;
#ifdef P1
  int *never = malloc(4); // P1 root
  unset = *never;
#endif
  printf("%d %d\n", later(3, 5), pointer(9, twice(2)));
  if (pointer(9, unset)) // P1: branch "pointer"
    puts("other");
  return 0;
}

int later(a, b)
int a, b;
{
  return a * b;
}
