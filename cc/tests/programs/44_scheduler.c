// A cooperative scheduler: tasks as functions with a state, resumed by a switch into their middle (Duff's device).
#include <stdio.h>
#include <stdlib.h>

struct task {
  int line;
  int (*run)(struct task *);
  int k, limit, wake;
  const char *name;
  struct task *next;
};
static int now;
#define BEGIN                                                                                                                                        \
  switch (t->line) {                                                                                                                                 \
  case 0:
#define YIELD(ticks)                                                                                                                                 \
  do {                                                                                                                                               \
    t->wake = now + (ticks);                                                                                                                         \
    t->line = __LINE__;                                                                                                                              \
    return 1;                                                                                                                                        \
  case __LINE__:;                                                                                                                                    \
  } while (0)
#define FINISH                                                                                                                                       \
  }                                                                                                                                                  \
  return 0

static int counter(struct task *t) {
  BEGIN;
  for (t->k = 0; t->k < t->limit; t->k++) {
    printf("%3d %s %d\n", now, t->name, t->k);
    YIELD(2);
  }
  FINISH;
}
static int alarm_(struct task *t) {
  BEGIN;
  YIELD(t->limit);
  printf("%3d %s rings\n", now, t->name);
  YIELD(1);
  printf("%3d %s ends\n", now, t->name);
  FINISH;
}
static struct task *spawn(struct task *list, const char *name, int (*run)(struct task *), int limit) {
  struct task *t = malloc(sizeof *t);
  *t = (struct task){.run = run, .name = name, .limit = limit, .next = list};
  return t;
}
static void copy_words(short *to, const short *from, int count) {
  int n = (count + 3) / 4;
  switch (count % 4) {
  case 0: do { *to++ = *from++;
  case 3: *to++ = *from++;
  case 2: *to++ = *from++;
  case 1: *to++ = *from++;
    } while (--n > 0);
  }
}

int main(void) {
  struct task *list = spawn(spawn(spawn(NULL, "slow", counter, 3), "alarm", alarm_, 3), "fast", counter, 2);
  for (now = 0; list; now++)
    for (struct task **at = &list; *at;) {
      struct task *t = *at;
      if (t->wake <= now && !t->run(t)) {
        *at = t->next;
        free(t);
      } else
        at = &t->next;
    }
  short from[] = {1, 2, 3, 4, 5, 6, 7}, to[7];
  copy_words(to, from, 7);
  printf("%d %d after %d\n", to[0], to[6], now);
  return 0;
}
