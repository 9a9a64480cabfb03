struct order {
  int price;
  int count;
};

int read_orders(const char *text, struct order *orders);
int sum_of(const struct order *orders, int number);
