// volatile: each access is done, once and in its place, also one whose value nothing takes.
#include <stdio.h>
#include <stdlib.h>

static volatile int counter, *volatile cell = &counter;
struct device {
  volatile unsigned status, data;
};
static void touch(struct device *d) {
  d->status = 1;
  d->status |= 4;
  d->data = d->status + d->data;
}

int main(void) {
  struct device d = {0, 5};
  for (volatile int k = 0; k < 3; k++)
    counter++;
  *cell += 4;
  (void)counter;
  touch(&d);
  printf("%d %u %u\n", *cell, d.status, d.data);
#ifdef P1
  volatile int *unset; // P1 root
  (void)*unset; // P1: address "*unset"
#endif
#ifdef P2
  volatile int *freed = malloc(4);
  free((void *)freed);
  (void)*freed; // P2: trap bad-address "*freed"
#endif
#ifdef P3
  volatile int v; // P3 root
  int w = v;
  if (w) // P3: branch "w)"
    puts("w");
#endif
#ifdef P4
  volatile int *null = 0;
  *null = 1; // P4: trap bad-address "= 1"
#endif
  return 0;
}
