// The labels of a table are printed; the last one has no end.
// calls: puts < print_row < print_table < main
#include <stdio.h>
#include <stdlib.h>
#include <string.h>

struct Row {
  char *label;
  int shown;
};

static void print_row(const struct Row *row) {
  if (row->shown)
    puts(row->label);
}

static void print_table(const struct Row *rows, int count) {
  for (int i = 0; i < count; i++)
    print_row(&rows[i]);
}

int main(void) {
  struct Row rows[2];
  rows[0].label = malloc(8);
  strcpy(rows[0].label, "rent");
  rows[0].shown = 1;
  rows[1].label = malloc(8);
  memcpy(rows[1].label, "food", 4);
  rows[1].shown = 1;
  print_table(rows, 2);
  return 0;
}
