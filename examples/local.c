// The largest of some numbers: nothing sets `largest` before the loop.
#include <stdio.h>

int main(void) {
  int numbers[4] = {3, 9, 2, 7};
  int largest;
  for (int k = 0; k < 4; k++)
    if (numbers[k] > largest)
      largest = numbers[k];
  printf("%d\n", largest);
  return 0;
}
