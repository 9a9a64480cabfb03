// A priority queue of events, generic by void pointers and a comparison.
#include <stdio.h>
#include <stdlib.h>
#include <string.h>

typedef struct {
  void *data;
  size_t size, count, room;
  int (*compare)(const void *, const void *);
} Heap;

static void *at(Heap *h, size_t k) { return (char *)h->data + k * h->size; }
static void swap(Heap *h, size_t a, size_t b) {
  char t[h->size];
  memcpy(t, at(h, a), h->size);
  memcpy(at(h, a), at(h, b), h->size);
  memcpy(at(h, b), t, h->size);
}
static void heap_push(Heap *h, const void *item) {
  if (h->count == h->room) {
    h->room = h->room ? 2 * h->room : 4;
    h->data = realloc(h->data, h->room * h->size);
  }
  size_t k = h->count++;
  memcpy(at(h, k), item, h->size);
  while (k > 0 && h->compare(at(h, k), at(h, (k - 1) / 2)) < 0) {
    swap(h, k, (k - 1) / 2);
    k = (k - 1) / 2;
  }
}
static int heap_pop(Heap *h, void *to) {
  if (!h->count)
    return 0;
  memcpy(to, at(h, 0), h->size);
  memcpy(at(h, 0), at(h, --h->count), h->size);
  for (size_t k = 0, child; (child = 2 * k + 1) < h->count; k = child) {
    if (child + 1 < h->count && h->compare(at(h, child + 1), at(h, child)) < 0)
      child++;
    if (h->compare(at(h, k), at(h, child)) <= 0)
      break;
    swap(h, k, child);
  }
  return 1;
}

struct event {
  int time, kind;
  const char *what;
};
static int earlier(const void *a, const void *b) {
  const struct event *x = a, *y = b;
  if (x->time != y->time)
    return x->time < y->time ? -1 : 1;
  if (x->kind != y->kind) // P1: branch "x->kind"
    return x->kind < y->kind ? -1 : 1;
  return strcmp(x->what, y->what);
}

int main(void) {
  Heap h = {.size = sizeof(struct event), .compare = earlier};
  static const char *names[] = {"start", "tick", "wake", "sleep", "end"};
  for (int i = 0; i < 15; i++) {
    struct event e; // P1 root
    e.time = i * 37 % 10;
#ifndef P1
    e.kind = i % 3;
#endif
    e.what = names[i % 5];
    heap_push(&h, &e);
  }
  struct event e;
  while (heap_pop(&h, &e))
    printf("%d:%d:%s ", e.time, e.kind, e.what);
  printf("\n");
  free(h.data);
  return 0;
}
