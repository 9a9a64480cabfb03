// Two buffers in turn: one is shown while the other is drawn. With the plant the turn changes before the picture is drawn.
// schedules: 5000
// tried: 34, all
#include <pthread.h>
#include <sched.h>
#include <stdio.h>
#include <stdlib.h>

enum { WIDTH = 3 };
static int *frames[2], shown;

static void draw(int *frame, int colour) {
  for (int k = 0; k < WIDTH; k++)
    frame[k] = colour;
}

static void *paint(void *unused) {
#ifndef P1
  draw(frames[1], 7);
  sched_yield();
  shown = 1;
#else
  shown = 1;
  sched_yield();
  draw(frames[1], 7);
#endif
  return NULL;
}

static void *show(void *unused) {
  for (int turn = 0; turn < 2; turn++) {
    int bright = 0;
    for (int k = 0; k < WIDTH; k++)
      if (frames[shown][k] > 5) // P1: branch "frames[shown][k]"
        bright++;
    printf("%d", bright);
    sched_yield();
  }
  return NULL;
}

int main(void) {
  for (int k = 0; k < 2; k++)
    frames[k] = malloc(WIDTH * sizeof(int)); // P1 root
  draw(frames[0], 1);
  pthread_t painter, shower;
  pthread_create(&painter, NULL, paint, NULL);
  pthread_create(&shower, NULL, show, NULL);
  pthread_join(painter, NULL);
  pthread_join(shower, NULL);
  putchar('\n');
  return 0;
}
