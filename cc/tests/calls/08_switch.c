// A machine with two states: its first state isn't set where the text is empty.
// calls: step < run < main
#include <stdio.h>
#include <stdlib.h>

enum State { Outside, Inside };

struct Machine {
  enum State state;
  int words;
};

static void step(struct Machine *machine, char c) {
  switch (machine->state) { // used
  case Outside:
    if (c != ' ') {
      machine->state = Inside;
      machine->words++;
    }
    break;
  case Inside:
    if (c == ' ')
      machine->state = Outside;
    break;
  }
}

static int run(const char *text) {
  struct Machine *machine = malloc(sizeof *machine);
  machine->words = 0;
  for (const char *c = text; *c != '\0'; c++)
    step(machine, *c);
  int words = machine->words;
  free(machine);
  return words;
}

int main(void) {
  printf("%d\n", run("one two"));
  return 0;
}
