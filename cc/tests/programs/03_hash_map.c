// A hash map of words with chains: counts words, prints the most frequent.
// input: the cat and the dog and the bird saw a cat that saw the sea\n
#include <ctype.h>
#include <stdio.h>
#include <stdlib.h>
#include <string.h>

#define BUCKETS 32
typedef struct Entry {
  char *key;
  int count;
  struct Entry *next;
} Entry;
static Entry *table[BUCKETS];

static unsigned hash(const char *s) {
  unsigned h = 2166136261u;
  while (*s)
    h = (h ^ (unsigned char)*s++) * 16777619u;
  return h % BUCKETS;
}

static Entry *lookup(const char *key, int create) {
  unsigned h = hash(key);
  for (Entry *e = table[h]; e; e = e->next)
    if (strcmp(e->key, key) == 0)
      return e;
  if (!create)
    return NULL;
  Entry *e = malloc(sizeof *e); // P1 root
  e->key = strdup(key);
#ifndef P1
  e->count = 0;
#endif
  e->next = table[h];
  return table[h] = e;
}

static int by_count(const void *a, const void *b) {
  const Entry *x = *(Entry *const *)a, *y = *(Entry *const *)b;
  if (x->count != y->count) // P1: branch "x->count"
    return y->count - x->count;
  return strcmp(x->key, y->key);
}

int main(void) {
  char word[32];
  int c, n = 0;
  while ((c = getchar()) != EOF) {
    if (isalpha(c) && n < 31)
      word[n++] = tolower(c);
    else if (n) {
      word[n] = 0;
      lookup(word, 1)->count++;
      n = 0;
    }
  }
  Entry *all[100];
  int total = 0;
  for (int i = 0; i < BUCKETS; i++)
    for (Entry *e = table[i]; e; e = e->next)
      all[total++] = e;
  qsort(all, total, sizeof *all, by_count);
  for (int i = 0; i < total; i++)
    printf("%-6s %2d\n", all[i]->key, all[i]->count);
  printf("%s\n", lookup("fish", 0) ? "fish" : "no fish");
  return 0;
}
