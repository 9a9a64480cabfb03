// Dates are sorted by year, then by month; the month of one of them isn't set.
// calls: by_date < qsort < sort_dates < main
#include <stdio.h>
#include <stdlib.h>

struct Date {
  int year, month;
};

static int by_date(const void *a, const void *b) {
  const struct Date *one = a, *other = b;
  if (one->year != other->year)
    return one->year < other->year ? -1 : 1;
  if (one->month < other->month) // used
    return -1;
  return one->month > other->month;
}

static void sort_dates(struct Date *dates, int count) { qsort(dates, count, sizeof *dates, by_date); }

int main(void) {
  struct Date dates[3];
  dates[0].year = 1991, dates[0].month = 4;
  dates[1].year = 1987, dates[1].month = 9;
  dates[2].year = 1987;
  sort_dates(dates, 3);
  printf("%d\n", dates[2].year);
  return 0;
}
