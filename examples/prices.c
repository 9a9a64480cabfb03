// The sum of reduced prices: nothing sets `chair`, and `reduced` is called for each of three things.
#include <stdio.h>

static int reduced(int price) {
  if (price > 100)
    return price - 10;
  return price;
}

int main(void) {
  int book = 20;
  int lamp = 140;
  int chair;
  int sum = reduced(book);
  sum += reduced(lamp);
  sum += reduced(chair);
  printf("%d\n", sum);
  return 0;
}
