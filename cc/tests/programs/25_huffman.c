// Huffman's codes: a heap of trees, the table of codes, the text there and back.
#include <stdio.h>
#include <stdlib.h>
#include <string.h>

typedef struct Tree {
  long weight;
  int symbol;
  struct Tree *zero, *one;
} Tree;
static Tree *heap[256];
static int count;
static char codes[256][40];

static int before(const Tree *a, const Tree *b) { return a->weight != b->weight ? a->weight < b->weight : a->symbol < b->symbol; }
static void push(Tree *t) {
  int k = count++;
  for (; k > 0 && before(t, heap[(k - 1) / 2]); k = (k - 1) / 2)
    heap[k] = heap[(k - 1) / 2];
  heap[k] = t;
}
static Tree *pop(void) {
  Tree *top = heap[0], *last = heap[--count];
  int k = 0;
  for (int child; (child = 2 * k + 1) < count; k = child) {
    if (child + 1 < count && before(heap[child + 1], heap[child]))
      child++;
    if (!before(heap[child], last))
      break;
    heap[k] = heap[child];
  }
  heap[k] = last;
  return top;
}
static Tree *tree(long weight, int symbol, Tree *zero, Tree *one) {
  Tree *t = malloc(sizeof *t); // P1 root
#ifdef P1
  t->weight = weight;
  t->symbol = symbol;
  if (zero) {
    t->zero = zero;
    t->one = one;
  }
#else
  *t = (Tree){weight, symbol, zero, one};
#endif
  return t;
}
static void assign(const Tree *t, char *code, int depth) {
  if (!t->zero) { // P1: branch "!t->zero"
    code[depth] = 0;
    strcpy(codes[t->symbol], code);
    return;
  }
  code[depth] = '0';
  assign(t->zero, code, depth + 1);
  code[depth] = '1';
  assign(t->one, code, depth + 1);
}

int main(void) {
  const char *text = "she sells sea shells by the sea shore";
  long weights[256] = {0};
  for (const char *c = text; *c; c++)
    weights[(unsigned char)*c]++;
  for (int s = 0; s < 256; s++)
    if (weights[s])
      push(tree(weights[s], s, NULL, NULL));
  while (count > 1) {
    Tree *a = pop(), *b = pop();
    push(tree(a->weight + b->weight, 256 + count, a, b));
  }
  Tree *root = pop();
  char code[40], *bits = calloc(1, 1000);
  assign(root, code, 0);
  for (int s = 0; s < 256; s++)
    if (weights[s])
      printf("'%c' %ld %s\n", s, weights[s], codes[s]);
  for (const char *c = text; *c; c++)
    strcat(bits, codes[(unsigned char)*c]);
  printf("%zu bits instead of %zu\n", strlen(bits), strlen(text) * 8);
  for (const char *b = bits; *b;) {
    const Tree *t = root;
    while (t->zero)
      t = *b++ == '0' ? t->zero : t->one;
    putchar(t->symbol);
  }
  putchar('\n');
  return 0;
}
