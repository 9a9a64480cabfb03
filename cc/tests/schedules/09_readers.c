// A writer and two readers of a value under a reader-writer lock; a reader uses it only where the writer has said that it is there.
// schedules: 2000
// tried: 19, all
#include <pthread.h>
#include <sched.h>
#include <stdio.h>
#include <stdlib.h>

struct cell {
  int is_there, value;
};
static struct cell *cell;
static pthread_rwlock_t lock = PTHREAD_RWLOCK_INITIALIZER;

static void *write_value(void *unused) {
  sched_yield();
  pthread_rwlock_wrlock(&lock);
  cell->is_there = 1;
#ifdef P1
  pthread_rwlock_unlock(&lock);
  sched_yield();
  pthread_rwlock_wrlock(&lock);
#endif
  cell->value = 3;
  pthread_rwlock_unlock(&lock);
  return NULL;
}

static void *read_value(void *unused) {
  sched_yield();
  pthread_rwlock_rdlock(&lock);
  if (cell->is_there && cell->value != 3) // P1: branch "cell->is_there"
    puts("wrong");
  pthread_rwlock_unlock(&lock);
  return NULL;
}

int main(void) {
  cell = malloc(sizeof *cell); // P1 root
  cell->is_there = 0;
  pthread_t writer, reader;
  pthread_create(&writer, NULL, write_value, NULL);
  pthread_create(&reader, NULL, read_value, NULL);
  pthread_join(writer, NULL);
  pthread_join(reader, NULL);
  printf("%d\n", cell->value);
  free(cell);
  return 0;
}
