// A cache that drops what was used longest ago: a list in both directions beside a table.
#include <stdio.h>
#include <stdlib.h>

typedef struct Node {
  int key, value;
  struct Node *prev, *next;
} Node;
typedef struct {
  int capacity, size, hits;
  Node head, tail;
  Node *by_key[64];
} Cache;

static Cache *cache_new(int capacity) {
#ifdef P1
  Cache *c = malloc(sizeof *c); // P1 root
  c->size = c->hits = 0;
#else
  Cache *c = calloc(1, sizeof *c);
#endif
  c->capacity = capacity;
  c->head.next = &c->tail;
  c->tail.prev = &c->head;
  return c;
}
static void unlink_node(Node *n) {
  n->prev->next = n->next;
  n->next->prev = n->prev;
}
static void push_front(Cache *c, Node *n) {
  n->next = c->head.next;
  n->prev = &c->head;
  c->head.next->prev = n;
  c->head.next = n;
}
static int get(Cache *c, int key) {
  Node *n = c->by_key[key];
  if (!n)
    return -1;
  c->hits++;
  unlink_node(n);
  push_front(c, n);
  return n->value;
}
static void put(Cache *c, int key, int value) {
  Node *n = c->by_key[key];
  if (n) { // P1: branch "n)"
    n->value = value;
    unlink_node(n);
    push_front(c, n);
    return;
  }
  if (c->size == c->capacity) {
    Node *last = c->tail.prev;
    unlink_node(last);
    c->by_key[last->key] = NULL;
    free(last);
    c->size--;
  }
  n = malloc(sizeof *n);
  n->key = key;
  n->value = value;
  c->by_key[key] = n;
  push_front(c, n);
  c->size++;
}

int main(void) {
  Cache *c = cache_new(3);
  for (int i = 0; i < 10; i++) {
    put(c, i % 5, i * 10);
    printf("get(%d)=%d ", i / 2, get(c, i / 2));
  }
  printf("\nhits %d, now:", c->hits);
  for (Node *n = c->head.next; n != &c->tail; n = n->next)
    printf(" %d=%d", n->key, n->value);
  printf("\n");
  return 0;
}
