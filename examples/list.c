// A list in the heap: nothing sets `next` of a new item, so that the last one has no end.
#include <stdio.h>
#include <stdlib.h>

struct item {
  int price;
  struct item *next;
};

static struct item *new_item(int price) {
  struct item *item = malloc(sizeof *item);
  if (!item)
    exit(1);
  item->price = price;
  return item;
}

int main(void) {
  struct item *first = new_item(5);
  first->next = new_item(7);
  int sum = 0;
  for (struct item *item = first; item; item = item->next)
    sum += item->price;
  printf("%d\n", sum);
  return 0;
}
