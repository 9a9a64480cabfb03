#include "total.h"

int sum_of(const struct order *orders, int number) {
  int sum = 0;
  for (int k = 0; k < number; k++)
    sum += orders[k].price * orders[k].count;
  return sum;
}
