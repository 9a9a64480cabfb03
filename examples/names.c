// Reads names with ages, and looks for one, with eleven functions of library/: nothing sets `flags`, one bit of which goes into each name.
#include <assert.h>
#include <ctype.h>
#include <stdio.h>
#include <stdlib.h>
#include <string.h>

enum { SMALL = 'a' - 'A' };

struct settings {
  char separator[2];
  unsigned flags; // SMALL: names begin with a small letter
};

struct person {
  char name[16];
  int age;
};

static void read_person(char *text, const struct settings *settings, struct person *person) {
  char *colon = strchr(text, ':');
  assert(colon && isalpha(text[0]) && strspn(colon + 1, "0123456789") > 0);
  *colon = '\0';
  strcpy(person->name, text);
  person->name[0] = toupper(text[0]) | (settings->flags & SMALL);
  person->age = atoi(colon + 1);
}

static int is_called(const char *name, const char *title, const char *wanted) {
  char whole[32];
  strcpy(whole, title);
  strcat(whole, name);
  return strcmp(whole, wanted) == 0;
}

int main(void) {
  struct settings *settings = malloc(sizeof *settings);
  char *line = strdup("ada:36,grace:85");
  assert(settings && line);
  strcpy(settings->separator, ",");
  for (char *text = strtok(line, settings->separator); text; text = strtok(NULL, settings->separator)) {
    struct person person;
    char name[16];
    read_person(text, settings, &person);
    strcpy(name, person.name);
    if (is_called(name, "Ms ", "Ms Ada"))
      printf("%d\n", person.age);
  }
  return 0;
}
