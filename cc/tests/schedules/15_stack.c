// A stack as a list: a node is complete before it is pushed.
// schedules: 2000
// tried: 34, all
#include <pthread.h>
#include <sched.h>
#include <stdio.h>
#include <stdlib.h>

struct node {
  struct node *next;
  int value;
};
static struct node *top;

static void *push(void *unused) {
  struct node *node = malloc(sizeof *node); // P1 root
  node->next = top;
#ifndef P1
  node->value = 4;
  sched_yield();
  node->next = top;
  top = node;
#else
  top = node;
  sched_yield();
  node->value = 4;
#endif
  return NULL;
}

static void *look(void *unused) {
  for (int turn = 0; turn < 2; turn++) {
    if (top && top->value == 4) // P1: branch "top &&"
      putchar('4');
    sched_yield();
  }
  return NULL;
}

int main(void) {
  pthread_t pusher, looker;
  pthread_create(&pusher, NULL, push, NULL);
  pthread_create(&looker, NULL, look, NULL);
  pthread_join(pusher, NULL);
  pthread_join(looker, NULL);
  putchar('\n');
  return 0;
}
