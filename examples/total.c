// Orders from a text and their sum, in three files.
#include "total.h"

#include <stdio.h>

int main(void) {
  struct order orders[4];
  int number = read_orders("6x25", orders);
  int sum = sum_of(orders, number);
  if (sum > 20)
    puts("free delivery");
  return 0;
}
