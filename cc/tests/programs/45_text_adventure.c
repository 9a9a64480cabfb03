// A text adventure: rooms, commands from standard input in a table, an inventory as a set of bits.
// input: look\ntake lamp\nnorth\nlook\ntake sword\ndrop lamp\nsouth\ninventory\ndance\neast\nquit\n
#include <stdio.h>
#include <stdlib.h>
#include <string.h>

enum direction { NORTH, SOUTH, EAST, WEST, DIRECTIONS };
enum thing { LAMP, SWORD, COIN, THINGS };
static const char *const things[THINGS] = {"lamp", "sword", "coin"};
static const char *const directions[DIRECTIONS] = {"north", "south", "east", "west"};
struct room {
  const char *name;
  struct room *exits[DIRECTIONS];
  unsigned things;
};
static struct room hall, cellar, garden;
static struct room hall = {"hall", {&cellar, NULL, &garden}, 1u << LAMP}, cellar = {"cellar", {[SOUTH] = &hall}, 1u << SWORD | 1u << COIN},
                   garden = {"garden", {[WEST] = &hall}, 0};
struct game {
  struct room *here;
  unsigned carried;
  int turns, is_over;
};
typedef void (*command_fn)(struct game *, const char *);

static void list(const char *label, unsigned set) {
  printf("%s:", label);
  for (int k = 0; k < THINGS; k++)
    if (set >> k & 1)
      printf(" %s", things[k]);
  puts(set ? "" : " nothing");
}
static int find(const char *word, const char *const *names, int count) {
  for (int k = 0; word && k < count; k++)
    if (strcmp(names[k], word) == 0)
      return k;
  return -1;
}
static void look(struct game *g, const char *word) {
  (void)word;
  printf("You are in the %s.\n", g->here->name);
  list("There is", g->here->things);
}
static void take(struct game *g, const char *word) {
  int k = find(word, things, THINGS);
  if (k < 0 || !(g->here->things >> k & 1))
    puts("There is none.");
  else {
    g->here->things ^= 1u << k;
    g->carried |= 1u << k;
    printf("Taken: %s\n", word);
  }
}
static void drop(struct game *g, const char *word) {
  int k = find(word, things, THINGS);
  if (k < 0 || !(g->carried >> k & 1))
    puts("You have none.");
  else {
    g->carried ^= 1u << k;
    g->here->things |= 1u << k;
  }
}
static void inventory(struct game *g, const char *word) {
  (void)word;
  list("You have", g->carried);
}
static void quit(struct game *g, const char *word) {
  (void)word;
  g->is_over = 1;
}
static const struct {
  const char *name;
  command_fn run;
} commands[] = {{"look", look}, {"take", take}, {"drop", drop}, {"inventory", inventory}, {"quit", quit}};

int main(void) {
  struct game g = {.here = &hall};
  char line[40];
  while (!g.is_over && fgets(line, sizeof line, stdin)) {
    char *word = strtok(line, " \n"), *rest = strtok(NULL, " \n");
    if (!word)
      continue;
    g.turns++;
    int way = find(word, directions, DIRECTIONS), done = 0;
    if (way >= 0) {
      if (g.here->exits[way])
        g.here = g.here->exits[way];
      printf("%s\n", g.here->name);
      continue;
    }
    for (size_t k = 0; k < sizeof commands / sizeof *commands; k++)
      if (strcmp(commands[k].name, word) == 0) {
        commands[k].run(&g, rest);
        done = 1;
      }
    if (!done)
      printf("%s?\n", word);
  }
  printf("%d turns\n", g.turns);
  return 0;
}
