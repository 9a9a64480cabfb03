// A graph: breadth-first, depth-first, Dijkstra, topological order.
#include <limits.h>
#include <stdio.h>
#include <stdlib.h>
#include <string.h>

enum { N = 8 };
struct edge {
  int to, weight;
  struct edge *next;
};
static struct edge *edges[N];

static void connect(int from, int to, int weight) {
  struct edge *e = malloc(sizeof *e);
  *e = (struct edge){to, weight, edges[from]};
  edges[from] = e;
}
static void breadth_first(int start) {
  int queue[N], head = 0, tail = 0, depth[N];
  memset(depth, -1, sizeof depth);
  depth[start] = 0;
  queue[tail++] = start;
  while (head < tail) {
    int n = queue[head++];
    printf("%d@%d ", n, depth[n]);
    for (struct edge *e = edges[n]; e; e = e->next)
      if (depth[e->to] < 0) {
        depth[e->to] = depth[n] + 1;
        queue[tail++] = e->to;
      }
  }
  printf("\n");
}
static void dijkstra(int start) {
  int distance[N], done[N]; // P1 root
#ifndef P1
  memset(done, 0, sizeof done);
#endif
  for (int k = 0; k < N; k++)
    distance[k] = INT_MAX;
  distance[start] = 0;
  for (;;) {
    int best = -1;
    for (int k = 0; k < N; k++)
      if (!done[k] && distance[k] < INT_MAX && (best < 0 || distance[k] < distance[best])) // P1: branch "&&"
        best = k;
    if (best < 0)
      break;
    done[best] = 1;
    for (struct edge *e = edges[best]; e; e = e->next)
      if (distance[best] + e->weight < distance[e->to])
        distance[e->to] = distance[best] + e->weight;
  }
  for (int k = 0; k < N; k++)
    if (distance[k] < INT_MAX)
      printf("%d:%d ", k, distance[k]);
  printf("\n");
}
static void visit(int n, char *seen, int *order, int *count) {
  if (seen[n])
    return;
  seen[n] = 1;
  for (struct edge *e = edges[n]; e; e = e->next)
    visit(e->to, seen, order, count);
  order[(*count)++] = n;
}

int main(void) {
  static const int list[][3] = {{0, 1, 7}, {0, 2, 3}, {2, 1, 1}, {1, 3, 2}, {2, 3, 8}, {3, 4, 4}, {5, 6, 1}, {4, 7, 1}, {2, 7, 20}};
  for (size_t k = 0; k < sizeof list / sizeof *list; k++)
    connect(list[k][0], list[k][1], list[k][2]);
  breadth_first(0);
  dijkstra(0);
  char seen[N] = "";
  int order[N], count = 0;
  for (int k = 0; k < N; k++)
    visit(k, seen, order, &count);
  while (count-- > 0)
    printf("%d ", order[count]);
  printf("\n");
  return 0;
}
