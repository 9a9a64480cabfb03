// Of three things whose price is reduced, nothing sets that of the chair.
// calls: reduced < main
#include <stdio.h>

static int reduced(int price) {
  if (price > 100) // used
    return price - 10;
  return price;
}

int main(void) {
  int book = 20, lamp = 140, chair;
  int sum = reduced(book);
  sum += reduced(lamp);
  sum += reduced(chair); // calls
  printf("%d\n", sum);
  return 0;
}
