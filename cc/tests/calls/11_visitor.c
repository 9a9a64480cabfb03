// A list is visited by a function that is handed over; the last link's value isn't set.
// calls: visit_even < each < count_even < main
#include <stdio.h>
#include <stdlib.h>

struct Link {
  int value;
  struct Link *next;
};

static struct Link *push(struct Link *next) {
  struct Link *link = malloc(sizeof *link);
  link->next = next;
  return link;
}

static void visit_even(int value, void *into) {
  if (value % 2 == 0) // used
    ++*(int *)into;
}

static void each(const struct Link *list, void (*visit)(int, void *), void *into) {
  for (; list != NULL; list = list->next)
    visit(list->value, into);
}

static int count_even(const struct Link *list) {
  int count = 0;
  each(list, visit_even, &count);
  return count;
}

int main(void) {
  struct Link *list = push(NULL);
  list = push(list);
  list->value = 2;
  printf("%d\n", count_even(list));
  return 0;
}
