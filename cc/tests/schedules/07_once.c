// An initialisation that runs once, by whichever thread comes first. The library's own, without a switch in it, or one by hand that says
// too early that it is done.
// schedules: 2000
// tried: 19, all
#include <pthread.h>
#include <sched.h>
#include <stdio.h>
#include <stdlib.h>

static int *limits;

static void begin(void) { limits[0] = 1, limits[1] = 99; }

#ifndef P1
static pthread_once_t once = PTHREAD_ONCE_INIT;
static void ensure(void) { pthread_once(&once, begin); }
#else
static int is_done;
static void ensure(void) {
  if (is_done)
    return;
  is_done = 1;
  sched_yield();
  begin();
}
#endif

static void *use(void *unused) {
  sched_yield();
  ensure();
  if (limits[1] < 10) // P1: branch "limits[1]"
    puts("narrow");
  return NULL;
}

int main(void) {
  limits = malloc(2 * sizeof *limits); // P1 root
  pthread_t first, second;
  pthread_create(&first, NULL, use, NULL);
  pthread_create(&second, NULL, use, NULL);
  pthread_join(first, NULL);
  pthread_join(second, NULL);
  printf("%d\n", limits[1] - limits[0]);
  free(limits);
  return 0;
}
