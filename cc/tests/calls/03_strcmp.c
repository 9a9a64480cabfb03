// A name of eight bytes is looked for; the second of the table has a gap that nothing wrote.
// calls: strcmp < same_name < find < main
#include <stdio.h>
#include <string.h>

struct Entry {
  char name[8];
  int number;
};

static int same_name(const struct Entry *entry, const char *name) { return strcmp(entry->name, name) == 0; }

static int find(const struct Entry *entries, int count, const char *name) {
  for (int i = 0; i < count; i++)
    if (same_name(&entries[i], name))
      return entries[i].number;
  return -1;
}

int main(void) {
  struct Entry entries[2];
  strcpy(entries[0].name, "one");
  entries[0].number = 1;
  entries[1].name[0] = 't';
  entries[1].number = 2;
  printf("%d\n", find(entries, 2, "two"));
  return 0;
}
