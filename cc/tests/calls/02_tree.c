// The count of nodes of a tree: the left child of the lowest node is never set.
// calls: count < count < count < count < main
#include <stdio.h>
#include <stdlib.h>

struct Node {
  int value;
  struct Node *left, *right;
};

static struct Node *new_node(int value, struct Node *right) {
  struct Node *node = malloc(sizeof *node);
  node->value = value;
  node->right = right;
  return node;
}

static int count(const struct Node *node) {
  if (node == NULL) // used
    return 0;
  return 1 + count(node->left) + count(node->right);
}

int main(void) {
  struct Node *low = new_node(1, NULL);
  struct Node *middle = new_node(2, low);
  struct Node *top = new_node(3, middle);
  top->left = NULL;
  middle->left = NULL;
  printf("%d\n", count(top));
  return 0;
}
