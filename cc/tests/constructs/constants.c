// Constant expressions: in initialisers, in calls, in results of structs, in phis.
#include <stdint.h>
#include <stdio.h>

struct at {
  char *p;
  long n;
};
struct node {
  struct node *next;
  int *value;
};
static int array[10];
static char text[20] = "constant";
static intptr_t where = (intptr_t)&array[3];
static char *bad = (char *)-1;
static long size = (char *)&array[7] - (char *)&array[2];
static unsigned low = (unsigned char)(uintptr_t)4660;
static struct node nodes[3] = {{&nodes[1], array}, {nodes + 2, &array[9]}, {0, &array[4] - 2}};
static int *const ends[2] = {array, array + 10};
static struct at end(int k) { return k ? (struct at){(char *)-1, 2} : (struct at){text + 3, (long)&text[5] - (long)text}; }
static int is_inside(const int *p) { return p >= ends[0] && p < ends[1]; }

int main(int argc, char **argv) {
  *nodes[0].next->value = 9;
  *nodes[0].next->next->value = 2;
  printf("%d %d %d %ld %u\n", (int)((int *)where - array), bad == (char *)-1, (int)(&array[5] - array), size, low);
  printf("%d %d %d\n", array[9], array[2], is_inside(nodes[2].value));
  printf("%d %ld %ld\n", end(1).p == (char *)-1, (long)(end(0).p - text), end(0).n);
  const char *chosen = argc > 1 ? text + 1 : text + 2;
  printf("%s %d\n", chosen, argv[0] != 0);
  return 0;
}
