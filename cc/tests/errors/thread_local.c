#include <pthread.h>
static _Thread_local int x; // error line: variable 'x': thread_local, in a program with threads
static void *f(void *p) {
  x++;
  return p;
}
int main(void) {
  pthread_t t;
  pthread_create(&t, 0, f, 0);
  return x;
}
