// Three stages, each begun when the one before has ended: no choice. With the plant the second is begun too early.
// schedules: 100
// tried: 1, all
#include <pthread.h>
#include <stdio.h>
#include <stdlib.h>

static int *text;

static void *read_text(void *unused) {
  for (int k = 0; k < 3; k++)
    text[k] = "abc"[k];
  return NULL;
}
static void *raise_text(void *unused) {
  for (int k = 0; k < 3; k++)
    if (text[k] >= 'a') // P1: branch "text[k]"
      text[k] -= 32;
  return NULL;
}
static void *print_text(void *unused) {
  for (int k = 0; k < 3; k++)
    putchar(text[k]);
  putchar('\n');
  return NULL;
}

int main(void) {
  text = malloc(3 * sizeof *text); // P1 root
  pthread_t reader, raiser, printer;
  pthread_create(&reader, NULL, read_text, NULL);
#ifndef P1
  pthread_join(reader, NULL);
  pthread_create(&raiser, NULL, raise_text, NULL);
#else
  pthread_create(&raiser, NULL, raise_text, NULL);
  pthread_join(reader, NULL);
#endif
  pthread_join(raiser, NULL);
  pthread_create(&printer, NULL, print_text, NULL);
  pthread_join(printer, NULL);
  free(text);
  return 0;
}
