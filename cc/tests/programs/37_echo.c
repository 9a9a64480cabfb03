// echo and seq in one: tools by the name of their first argument.
// args: seq -w 8 11
#include <stdio.h>
#include <stdlib.h>
#include <string.h>

static int echo(int argc, char **argv) {
  int newline = 1;
  if (argc > 1 && strcmp(argv[1], "-n") == 0) {
    newline = 0;
    argv++, argc--;
  }
  for (int i = 1; i < argc; i++)
    printf("%s%s", i > 1 ? " " : "", argv[i]);
  if (newline)
    putchar('\n');
  return 0;
}
static int seq(int argc, char **argv) {
  int width = 0, first = 1;
  if (argc > 1 && strcmp(argv[1], "-w") == 0) {
    width = (int)strlen(argv[argc - 1]);
    first = 2;
  }
  long from = argc - first > 1 ? strtol(argv[first], NULL, 0) : 1, to = strtol(argv[argc - 1], NULL, 0);
  for (long n = from; n <= to; n++)
    printf("%0*ld\n", width, n);
  return 0;
}
static int usage(int argc, char **argv) {
  (void)argc;
  fprintf(stderr, "usage: %s TOOL ARGUMENT...\n", argv[0]);
  return 2;
}
static const struct {
  const char *name;
  int (*run)(int, char **);
} tools[] = {{"echo", echo}, {"seq", seq}, {NULL, usage}};

int main(int argc, char **argv) {
  if (argc < 2)
    return usage(argc, argv);
  int k = 0;
  while (tools[k].name && strcmp(tools[k].name, argv[1]) != 0)
    k++;
  char *nothing[] = {"echo", "-n", "a", "b", NULL};
  echo(4, nothing);
  puts("|");
  return tools[k].run(argc - 1, argv + 1);
}
