// Writes a record as it lies in memory, with the three bytes between its fields, which nothing sets.
#include <unistd.h>

struct record {
  char kind;
  int length;
};

int main(void) {
  struct record record;
  record.kind = 'r';
  record.length = 12;
  write(1, &record, sizeof record);
  return 0;
}
