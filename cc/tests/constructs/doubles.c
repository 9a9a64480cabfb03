// Doubles that are only stored, copied, passed and returned: carried as words, with their unset bits.
#include <stdio.h>
#include <stdlib.h>
#include <string.h>

struct reading {
  int id;
  double value;
};
union number {
  double d;
  unsigned long bits;
};
static double table[3] = {1.5, -0.25, 1e300};
static const struct reading first = {7, 2.75};
static double kept;

static double pass(double d) { return d; }
static struct reading made(int id, double value) {
  struct reading r;
  r.id = id;
  r.value = value;
  return r;
}
static unsigned long bits(double d) {
  union number n = {d};
  return n.bits;
}
static double chosen(int k, double a, double b) { return k ? a : b; }

int main(void) {
  kept = pass(table[1]);
  struct reading r = made(3, kept), *copy = malloc(sizeof *copy);
  memcpy(copy, &r, sizeof r);
  double (*function)(double) = pass;
  printf("%lx %lx %lx\n", bits(copy->value), bits(first.value), bits(function(table[2])));
  printf("%lx %lx %d\n", bits(chosen(1, 0.5, table[0])), bits(chosen(0, 0.5, table[0])), copy->id);
#ifdef P1
  struct reading unset; // P1 root
  unset.id = 1;
  struct reading again = unset;
  if (bits(pass(again.value)) == 0) // P1: branch "bits"
    puts("zero");
#endif
#ifdef P2
  double *never = malloc(2 * sizeof *never); // P2 root
  never[0] = 1.0;
  double d = chosen(0, never[0], never[1]);
  if (bits(d) & 1) // P2: branch "bits"
    puts("odd");
#endif
  return 0;
}
