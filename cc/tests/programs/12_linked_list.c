// A singly linked list: insertion in order, removal by pointers to pointers, reversal, merge sort.
#include <stdio.h>
#include <stdlib.h>

struct node {
  int value;
  struct node *next;
};

static struct node *cons(int value, struct node *next) {
  struct node *n = malloc(sizeof *n); // P1 root
  if (!n)
    abort();
  n->value = value;
#ifdef P1
  if (next)
#endif
    n->next = next;
  return n;
}
static void print(const char *label, const struct node *list) {
  printf("%s:", label);
  for (; list; list = list->next) // P1: branch "for"
    printf(" %d", list->value);
  printf("\n");
}
static void insert_sorted(struct node **list, int value) {
  while (*list && (*list)->value < value)
    list = &(*list)->next;
  *list = cons(value, *list);
}
static int remove_all(struct node **list, int (*unwanted)(int)) {
  int count = 0;
  while (*list)
    if (unwanted((*list)->value)) {
      struct node *gone = *list;
      *list = gone->next;
      free(gone);
      count++;
    } else
      list = &(*list)->next;
  return count;
}
static struct node *reverse(struct node *list) {
  struct node *done = NULL;
  while (list) {
    struct node *next = list->next;
    list->next = done;
    done = list;
    list = next;
  }
  return done;
}
static struct node *merge(struct node *a, struct node *b) {
  struct node head, *tail = &head;
  while (a && b) {
    struct node **least = a->value <= b->value ? &a : &b;
    tail = tail->next = *least;
    *least = (*least)->next;
  }
  tail->next = a ? a : b;
  return head.next;
}
static struct node *sort(struct node *list) {
  if (!list || !list->next)
    return list;
  struct node *slow = list, *fast = list->next;
  while (fast && (fast = fast->next)) {
    fast = fast->next;
    slow = slow->next;
  }
  struct node *half = slow->next;
  slow->next = NULL;
  return merge(sort(list), sort(half));
}
static int is_odd(int n) { return n & 1; }

int main(void) {
  struct node *list = NULL, *other = NULL;
  int values[] = {5, 2, 8, 1, 9, 3};
  for (int i = 0; i < 6; i++) {
    other = cons(values[i], other);
#ifdef P1
    print("first", other);
#endif
    insert_sorted(&list, values[i]);
  }
  print("sorted", list);
  print("pushed", other);
  print("reversed", list = reverse(list));
  printf("%d removed\n", remove_all(&list, is_odd));
  print("even", list);
  print("sorted", other = sort(other));
  return 0;
}
