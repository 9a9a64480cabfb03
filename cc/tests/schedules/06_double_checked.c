// Made at its first use: who finds the pointer set finds all that it leads to set.
// schedules: 2000
// tried: 19, all
#include <pthread.h>
#include <sched.h>
#include <stdio.h>
#include <stdlib.h>

struct table {
  int size;
};
static struct table *table;
static pthread_mutex_t lock = PTHREAD_MUTEX_INITIALIZER;

static struct table *get(void) {
  if (!table) {
    pthread_mutex_lock(&lock);
    if (!table) {
      struct table *made = malloc(sizeof *made); // P1 root
#ifndef P1
      made->size = 7;
      table = made;
#else
      table = made;
      pthread_mutex_unlock(&lock);
      sched_yield();
      pthread_mutex_lock(&lock);
      made->size = 7;
#endif
    }
    pthread_mutex_unlock(&lock);
  }
  sched_yield();
  return table;
}

static void *use(void *unused) {
  if (get()->size != 7) // P1: branch "get()->size"
    puts("wrong");
  return NULL;
}

int main(void) {
  pthread_t first, second;
  pthread_create(&first, NULL, use, NULL);
  pthread_create(&second, NULL, use, NULL);
  pthread_join(first, NULL);
  pthread_join(second, NULL);
  printf("%d\n", table->size);
  return 0;
}
