// A condition variable tells that a letter is in the box. The library waits by yielding.
// schedules: 40
// steps: 20000
// tried: more
#include <pthread.h>
#include <stdio.h>
#include <stdlib.h>

struct box {
  int is_full, letter;
};
static struct box *box;
static pthread_mutex_t lock = PTHREAD_MUTEX_INITIALIZER;
static pthread_cond_t filled = PTHREAD_COND_INITIALIZER;

static void *receive(void *unused) {
  pthread_mutex_lock(&lock);
#ifndef P1
  while (!box->is_full)
    pthread_cond_wait(&filled, &lock);
#endif
  if (box->letter == 'a') // P1: branch "box->letter"
    puts("a letter");
  pthread_mutex_unlock(&lock);
  return NULL;
}

static void *send(void *unused) {
  pthread_mutex_lock(&lock);
  box->letter = 'a';
  box->is_full = 1;
  pthread_cond_signal(&filled);
  pthread_mutex_unlock(&lock);
  return NULL;
}

int main(void) {
  box = malloc(sizeof *box); // P1 root
  box->is_full = 0;
  pthread_t receiver, sender;
  pthread_create(&sender, NULL, send, NULL);
  pthread_create(&receiver, NULL, receive, NULL);
  pthread_join(sender, NULL);
  pthread_join(receiver, NULL);
  free(box);
  return 0;
}
