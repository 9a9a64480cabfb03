// A binary search tree with callbacks for its walks, deletion, and depth.
#include <stdio.h>
#include <stdlib.h>

typedef struct Node {
  int key;
  struct Node *left, *right;
} Node;
typedef void (*visit_fn)(const Node *, int depth, void *);

static Node *insert(Node *t, int key) {
  if (!t) {
    t = calloc(1, sizeof *t);
    t->key = key;
  } else if (key < t->key)
    t->left = insert(t->left, key);
  else if (key > t->key)
    t->right = insert(t->right, key);
  return t;
}
static Node *erase(Node *t, int key) {
  if (!t)
    return NULL;
  if (key < t->key)
    t->left = erase(t->left, key);
  else if (key > t->key)
    t->right = erase(t->right, key);
  else if (t->left && t->right) {
    Node *next = t->right;
    while (next->left)
      next = next->left;
    t->key = next->key;
    t->right = erase(t->right, next->key);
  } else {
    Node *child = t->left ? t->left : t->right;
    free(t);
    return child;
  }
  return t;
}
static void walk(const Node *t, int depth, visit_fn visit, void *data) {
  if (!t)
    return;
  walk(t->left, depth + 1, visit, data);
  visit(t, depth, data);
  walk(t->right, depth + 1, visit, data);
}
static void print(const Node *t, int depth, void *data) {
  (void)data;
  printf("%*s%d\n", 2 * depth, "", t->key);
}
static void deepest(const Node *t, int depth, void *data) {
  (void)t;
  if (depth > *(int *)data)
    *(int *)data = depth;
}
static void add(const Node *t, int depth, void *data) {
  (void)depth;
  *(long *)data += t->key;
}

int main(void) {
  Node *root = NULL;
  for (int k = 0; k < 15; k++)
    root = insert(root, k * 11 % 31);
  int depth = 0;
  long sum = 0;
  walk(root, 0, deepest, &depth);
  walk(root, 0, add, &sum);
  printf("depth %d, sum %ld\n", depth, sum);
  root = erase(erase(erase(root, 0), 11), 99);
  walk(root, 0, print, NULL);
  return 0;
}
