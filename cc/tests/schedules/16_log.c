// Two threads take an entry of a log each and fill it. The log is printed when both have ended, or as soon as both entries are taken.
// schedules: 2000
// tried: 19, all
#include <pthread.h>
#include <sched.h>
#include <stdio.h>
#include <stdlib.h>

static int *entries, taken;

static void *tell(void *given) {
  int own = taken++;
  sched_yield();
  entries[own] = (int)(long)given;
  return NULL;
}

static void print(void) {
  for (int k = 0; k < taken; k++)
    if (entries[k] != 0) // P1: branch "entries[k]"
      putchar('x');
}

int main(void) {
  entries = malloc(2 * sizeof *entries); // P1 root
  pthread_t first, second;
  pthread_create(&first, NULL, tell, (void *)1);
  pthread_create(&second, NULL, tell, (void *)2);
#ifdef P1
  if (taken == 2)
    print();
#endif
  pthread_join(first, NULL);
#ifdef P1
  if (taken == 2)
    print();
#endif
  pthread_join(second, NULL);
  print();
  putchar('\n');
  return 0;
}
