// The calendar: 16 times and 217 that mktime puts right, by each directive of strftime. Run with TZ=UTC.
#include <stdio.h>
#include <time.h>
#include <stdlib.h>
int main(void) {
  long ts[] = {0,      1,           86399,      86400,        951782400,  951868800, 1709164800, -1,
               -86400, -2208988800, 4102444800, 253402300799, 1234567890, 1e10,      68169600};
  for (unsigned i = 0; i < sizeof ts / sizeof *ts; i++) {
    time_t t = ts[i];
    struct tm *m = gmtime(&t);
    char b[400];
    size_t n = strftime(
        b, 400, "%a %A %b %B %c %C %d %D %e %F %g %G %H %I %j %k %l %m %M %n %p %r %R %S %s %t %T %u %U %V %w %W %x %X %y %Y %z %Z %%", m);
    printf("%zu %s\n", n, b);
    printf("%s", asctime(m));
    printf("%ld\n", (long)timegm(m));
  }
  for (int k = -4000; k < 4000; k += 37) {
    struct tm m = {.tm_year = 100 + k / 100, .tm_mon = k % 29, .tm_mday = k % 67, .tm_hour = k % 50, .tm_min = k, .tm_sec = -k};
    time_t t = mktime(&m);
    char b[100];
    strftime(b, 100, "%F %T %j %U %V %G %W", &m);
    printf("%ld %s %d\n", (long)t, b, m.tm_wday);
  }
  printf("%.1f %.1f %.1f %.1f\n", difftime(5, 3), difftime(3, 5), difftime(0, 0), difftime(1l << 40, -7));
  struct tm part;
  part.tm_mday = 7;
  part.tm_mon = 2;
  char text[20];
  strftime(text, sizeof text, "%d %B", &part);
  puts(text); // no more of it is read
#ifdef P1
  struct tm unset;
  unset.tm_year = 100;
  unset.tm_mon = unset.tm_mday = unset.tm_hour = unset.tm_min = unset.tm_sec = 1;
  printf("%ld\n", (long)timegm(&unset));
  unset.tm_year++;
  struct tm other;
  other = unset;
  printf("%ld\n", (long)mktime(&other)); // set by timegm
  struct tm third;                       // P1 root
  third.tm_year = 100;
  third.tm_mon = third.tm_mday = third.tm_hour = third.tm_min = third.tm_sec = 1;
  mktime(&third); // P1: branch in format.c
#endif
  return 0;
}
