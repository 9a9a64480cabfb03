// A trie of words: insertion, look-up, all words with a prefix.
#include <stdio.h>
#include <stdlib.h>
#include <string.h>

typedef struct Trie {
  struct Trie *child[26];
  int is_word;
} Trie;

static Trie *trie_new(void) {
#ifdef P1
  Trie *t = malloc(sizeof(Trie)); // P1 root
  memset(t->child, 0, sizeof t->child);
  return t;
#else
  return calloc(1, sizeof(Trie));
#endif
}
static void insert(Trie *t, const char *word) {
  for (; *word; word++) {
    Trie **next = &t->child[*word - 'a'];
    if (!*next)
      *next = trie_new();
    t = *next;
  }
  t->is_word = 1;
}
static const Trie *find(const Trie *t, const char *prefix) {
  while (t && *prefix)
    t = t->child[*prefix++ - 'a'];
  return t;
}
static int list(const Trie *t, char *text, int length) {
  int count = 0;
  if (t->is_word) { // P1: branch "t->is_word"
    text[length] = 0;
    printf("  %s\n", text);
    count++;
  }
  for (int k = 0; k < 26; k++)
    if (t->child[k]) {
      text[length] = 'a' + k;
      count += list(t->child[k], text, length + 1);
    }
  return count;
}
static void destroy(Trie *t) {
  for (int k = 0; k < 26; k++)
    if (t->child[k])
      destroy(t->child[k]);
  free(t);
}

int main(void) {
  static const char *words[] = {"car", "card", "care", "cat", "dog", "do", "done", NULL};
  Trie *root = trie_new();
  for (const char **w = words; *w; w++)
    insert(root, *w);
  const char *prefixes[] = {"car", "do", "x"};
  for (int i = 0; i < 3; i++) {
    char text[20];
    strcpy(text, prefixes[i]);
    const Trie *t = find(root, prefixes[i]);
    printf("%s*\n", prefixes[i]);
    printf("%d words\n", t ? list(t, text, (int)strlen(text)) : 0);
  }
  destroy(root);
  return 0;
}
