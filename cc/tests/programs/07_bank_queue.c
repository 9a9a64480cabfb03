// A bank's queue: customers arrive and are served at two counters, minute by minute.
#include <stdio.h>
#include <stdlib.h>

struct customer {
  int number, arrived, need;
  struct customer *next;
};
struct queue {
  struct customer *first, *last;
  int length, longest;
};
struct counter {
  struct customer *serving;
  int left, served;
};

static unsigned seed = 42;
static int draw(int n) {
  seed = seed * 1103515245u + 12345u;
  return (int)(seed >> 16) % n;
}
static void enter(struct queue *q, struct customer *c) {
  c->next = NULL;
  if (q->last)
    q->last->next = c;
  else
    q->first = c;
  q->last = c;
  if (++q->length > q->longest)
    q->longest = q->length;
}
static struct customer *leave(struct queue *q) {
  struct customer *c = q->first;
  if (!c)
    return NULL;
  q->first = c->next;
  if (!q->first)
    q->last = NULL;
  q->length--;
  return c;
}

int main(void) {
  struct queue q = {0};
  struct counter counters[2] = {{0}};
  int number = 0, waited = 0, served = 0;
  for (int minute = 0; minute < 60; minute++) {
    if (draw(10) < 5) {
      struct customer *c = malloc(sizeof *c); // P1 root
      c->number = ++number;
#ifndef P1
      c->arrived = minute;
#endif
      c->need = 1 + draw(5);
      enter(&q, c);
    }
    for (int k = 0; k < 2; k++) {
      struct counter *counter = &counters[k];
      if (counter->serving && --counter->left == 0) {
        counter->served++;
        free(counter->serving);
        counter->serving = NULL;
      }
      if (!counter->serving && (counter->serving = leave(&q))) {
        counter->left = counter->serving->need;
        int wait = minute - counter->serving->arrived;
        if (wait > 3) // P1: branch "wait > 3"
          printf("%2d: customer %d waited %d minutes\n", minute, counter->serving->number, wait);
        waited += wait;
        served++;
      }
    }
  }
  printf("%d came, %d served, %d+%d done, longest queue %d, waited %d\n", number, served, counters[0].served, counters[1].served, q.longest, waited);
  return 0;
}
