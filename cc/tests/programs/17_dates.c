// Dates: weekday, day of the year, difference, leap years, a month's calendar.
#include <stdio.h>

struct date {
  int year, month, day;
};

static int is_leap(int y) { return (y % 4 == 0 && y % 100 != 0) || y % 400 == 0; }
static int days_in(int y, int m) {
  static const int days[] = {31, 28, 31, 30, 31, 30, 31, 31, 30, 31, 30, 31};
  return days[m - 1] + (m == 2 && is_leap(y)); // P1: address "days[m - 1]"
}
static long number(struct date d) {
  long n = d.day;
  for (int m = 1; m < d.month; m++)
    n += days_in(d.year, m);
  long y = d.year - 1;
  return n + y * 365 + y / 4 - y / 100 + y / 400;
}
static int weekday(struct date d) { return (int)(number(d) % 7); }
static struct date plus(struct date d, int days) {
  for (; days > 0; days--)
    if (++d.day > days_in(d.year, d.month)) {
      d.day = 1;
      if (++d.month > 12) {
        d.month = 1;
        d.year++;
      }
    }
  return d;
}
static struct date parse(const char *text) {
  struct date d;
#ifdef P1
  sscanf(text, "%d", &d.year);
  d.day = 1;
#else
  sscanf(text, "%d-%d-%d", &d.year, &d.month, &d.day);
#endif
  return d;
}
static void calendar(int year, int month) {
  int first = weekday((struct date){year, month, 1});
  printf("%*s", 3 * ((first + 6) % 7), "");
  for (int day = 1; day <= days_in(year, month); day++)
    printf("%3d%s", day, (day + (first + 6) % 7) % 7 == 0 ? "\n" : "");
  printf("\n");
}

int main(void) {
  static const char *const names[] = {"Sun", "Mon", "Tue", "Wed", "Thu", "Fri", "Sat"};
  struct date a = parse("2024-02-28"), b = plus(a, 400);
  printf("%s %04d-%02d-%02d\n", names[weekday(a)], a.year, a.month, a.day);
  printf("%s %04d-%02d-%02d\n", names[weekday(b)], b.year, b.month, b.day);
  printf("%ld days\n", number(b) - number(a));
  for (int y = 1896; y <= 1912; y += 4)
    printf("%d%s ", y, is_leap(y) ? " leap" : "");
  printf("\n");
  calendar(2024, 2);
  return 0;
}
