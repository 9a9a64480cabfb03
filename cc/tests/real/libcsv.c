#include "csv.h"
#include <stdio.h>
#include <string.h>

struct counts {
  int fields, rows;
};
static void field(void *text, size_t length, void *data) {
  struct counts *c = data;
  c->fields++;
  printf("[%.*s]", (int)length, (const char *)text);
}
static void row(int end, void *data) {
  struct counts *c = data;
  c->rows++;
  printf(" %d\n", end);
}

int main(void) {
  struct csv_parser p;
  struct counts c = {0, 0};
  const char *text = "name, amount ,\"a \"\"quoted\"\" word\"\r\n1,2,3\n\n\"over\ntwo lines\",,last";
  csv_init(&p, CSV_APPEND_NULL);
  for (size_t k = 0; k < strlen(text); k += 7) // in pieces
    csv_parse(&p, text + k, strlen(text) - k < 7 ? strlen(text) - k : 7, field, row, &c);
  csv_fini(&p, field, row, &c);
  printf("%d fields, %d rows, %s\n", c.fields, c.rows, csv_strerror(csv_error(&p)));
  csv_free(&p);
  char out[40];
  printf("%zu\n", csv_write(out, sizeof out, "say \"hi\"", 8));
  return 0;
}
