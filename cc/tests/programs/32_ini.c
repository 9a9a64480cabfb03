// An INI parser with a callback for each value, as inih has it.
// input: ; settings\n[server]\nport = 8080\nhost=example.org\n\n[ log ]\nlevel = info ; comment\nbroken line\nfile=/tmp/log\n
#include <ctype.h>
#include <stdio.h>
#include <stdlib.h>
#include <string.h>

struct config {
  int port, verbose;
  char host[20], level[10];
};
typedef int (*handler_fn)(void *, const char *, const char *, const char *);

static char *strip(char *s) {
  while (isspace((unsigned char)*s))
    s++;
  char *end = s + strlen(s);
  while (end > s && isspace((unsigned char)end[-1]))
    *--end = 0;
  return s;
}
static int parse(FILE *from, handler_fn handler, void *user) {
  char line[80], section[20] = "";
  int number = 0, error = 0;
  while (fgets(line, sizeof line, from)) {
    number++;
    char *at = strchr(line, ';');
    if (at)
      *at = 0;
    at = strip(line);
    size_t n = strlen(at);
    if (!n)
      continue;
    char *equals = strchr(at, '=');
    if (*at == '[' && at[n - 1] == ']') {
      at[n - 1] = 0;
      snprintf(section, sizeof section, "%s", strip(at + 1));
    } else if (equals) {
      *equals = 0;
      if (!handler(user, section, strip(at), strip(equals + 1)) && !error)
        error = number;
    } else if (!error)
      error = number;
  }
  return error;
}
static int set(void *user, const char *section, const char *name, const char *value) {
  struct config *c = user;
#define MATCH(s, n) (strcmp(section, s) == 0 && strcmp(name, n) == 0)
  if (MATCH("server", "port"))
    c->port = atoi(value);
  else if (MATCH("server", "host"))
    strncpy(c->host, value, sizeof c->host);
  else if (MATCH("log", "level"))
    strncpy(c->level, value, sizeof c->level);
  else
    return 0;
  return 1;
}

int main(void) {
#ifdef P1
  struct config c; // P1 root
  c.port = 80;
#else
  struct config c = {.port = 80};
#endif
  int error = parse(stdin, set, &c);
  printf("%s:%d %s\n", c.host, c.port, c.level);
  if (c.verbose) // P1: branch "c.verbose"
    puts("verbose");
  printf("first error in line %d\n", error);
  return 0;
}
