// The calendar of <time.h>, in UTC.
#define _GNU_SOURCE
#include "library.h"

#include <errno.h>
#include <limits.h>
#include <stdint.h>
#include <string.h>
#include <time.h>

weak char *tzname[2] = {"UTC", "UTC"};
weak long timezone;
weak int daylight;
weak void tzset(void) {}

static long floor_divided(long a, long b) { return a / b - (a % b < 0); }
static int is_leap(long year) { return year % 4 == 0 && (year % 100 != 0 || year % 400 == 0); }

// Days before a month in a year of 365.
static const short days_before[] = {0, 31, 59, 90, 120, 151, 181, 212, 243, 273, 304, 334};

// Days from 1970 to the first of January of a year.
static long days_to_year(long year) {
  long before = year - 1;
  return 365 * (year - 1970) + floor_divided(before, 4) - floor_divided(before, 100) + floor_divided(before, 400) - 477;
}

static int month_of(int day_of_year, int leap) {
  for (int month = 11; month > 0; month--)
    if (day_of_year >= days_before[month] + (leap && month > 1))
      return month;
  return 0;
}

static struct tm *fill(time_t seconds, const char *zone, struct tm *tm) {
  cc_check_argument(seconds);
  long day = floor_divided(seconds, 86400), rest = seconds - day * 86400,
       year = 1970 + (day < 0 ? day / 365 - 1 : day / 366); // at most that
  if (year > INT_MAX || year < INT_MIN) {
    errno = EOVERFLOW;
    return NULL;
  }
  while (days_to_year(year + 1) <= day)
    year += 1 + (day - days_to_year(year + 1)) / 366;
  int of_year = (int)(day - days_to_year(year)), month = month_of(of_year, is_leap(year));
  *tm = (struct tm){
      .tm_sec = rest % 60,
      .tm_min = rest / 60 % 60,
      .tm_hour = rest / 3600,
      .tm_mday = of_year - days_before[month] - (is_leap(year) && month > 1) + 1,
      .tm_mon = month,
      .tm_year = year - 1900,
      .tm_wday = (int)(((day + 4) % 7 + 7) % 7),
      .tm_yday = of_year,
      .tm_gmtoff = 0,
      .tm_zone = zone,
  };
  return tm;
}

static struct tm shared;
weak struct tm *gmtime_r(const time_t *restrict seconds, struct tm *restrict to) { return fill(*seconds, "GMT", to); }
weak struct tm *localtime_r(const time_t *restrict seconds, struct tm *restrict to) { return fill(*seconds, "UTC", to); }
weak struct tm *gmtime(const time_t *seconds) { return fill(*seconds, "GMT", &shared); }
weak struct tm *localtime(const time_t *seconds) { return fill(*seconds, "UTC", &shared); }

// Fields may be out of their ranges; they are put right.
static time_t seconds_of(struct tm *tm, const char *zone) {
  cc_check_argument(tm->tm_mon);
  cc_check_argument(tm->tm_year);
  long years = floor_divided(tm->tm_mon, 12), year = 1900l + tm->tm_year + years;
  int month = (int)(tm->tm_mon - years * 12);
  long day = days_to_year(year) + days_before[month] + (is_leap(year) && month > 1) + tm->tm_mday - 1;
  time_t seconds = day * 86400 + tm->tm_hour * 3600l + tm->tm_min * 60l + tm->tm_sec;
  return fill(seconds, zone, tm) ? seconds : -1;
}
// C says that `tm_isdst` is read, though there is no summer time in UTC.
weak time_t mktime(struct tm *tm) {
  cc_check_argument(tm->tm_isdst);
  return seconds_of(tm, "UTC");
}
weak time_t timegm(struct tm *tm) { return seconds_of(tm, "GMT"); }
weak time_t timelocal(struct tm *tm) { return mktime(tm); }

// A `double` is carried as its bits, and no arithmetic on it is there; so they are put together, of up to 53.
weak double difftime(time_t later, time_t sooner) {
  long difference = later - sooner;
  cc_check_argument(difference);
  uint64_t magnitude = difference < 0 ? -(uint64_t)difference : (uint64_t)difference;
  union {
    uint64_t bits;
    double number;
  } made = {.bits = 0};
  if (magnitude) {
    int zeros = __builtin_clzl(magnitude);
    made.bits = (magnitude << zeros << 1 >> 12) | (uint64_t)(1023 + 63 - zeros) << 52 | (uint64_t)(difference < 0) << 63;
  }
  return made.number;
}

// ---- as text

static const char days[][10] = {"Sunday", "Monday", "Tuesday", "Wednesday", "Thursday", "Friday", "Saturday"};
static const char months[][10] = {"January", "February", "March",     "April",   "May",      "June",
                                  "July",    "August",   "September", "October", "November", "December"};

weak char *asctime_r(const struct tm *restrict tm, char *restrict text) {
  sprintf(text, "%.3s %.3s%3d %.2d:%.2d:%.2d %d\n", tm->tm_wday < 0 || tm->tm_wday > 6 ? "???" : days[tm->tm_wday],
          tm->tm_mon < 0 || tm->tm_mon > 11 ? "???" : months[tm->tm_mon], tm->tm_mday, tm->tm_hour, tm->tm_min, tm->tm_sec,
          1900 + tm->tm_year);
  return text;
}
weak char *asctime(const struct tm *tm) {
  static char text[64];
  return asctime_r(tm, text);
}
weak char *ctime_r(const time_t *seconds, char *text) {
  struct tm tm;
  return fill(*seconds, "UTC", &tm) ? asctime_r(&tm, text) : NULL;
}
weak char *ctime(const time_t *seconds) { return fill(*seconds, "UTC", &shared) ? asctime(&shared) : NULL; }

// The week of ISO 8601, and its year.
static int iso_week(const struct tm *tm, long *year) {
  cc_check_argument(tm->tm_wday);
  cc_check_argument(tm->tm_yday);
  int monday = (tm->tm_wday + 6) % 7, week = (tm->tm_yday - monday + 10) / 7; // of the Thursday
  *year = 1900l + tm->tm_year;
  if (week == 0) {
    --*year;
    int before = tm->tm_yday + 365 + is_leap(*year);
    return (before - monday + 10) / 7;
  }
  if (week == 53 && tm->tm_yday - monday + 3 >= 365 + is_leap(*year)) {
    ++*year;
    return 1;
  }
  return week;
}

static int hour_of_twelve(const struct tm *tm) {
  cc_check_argument(tm->tm_hour);
  return tm->tm_hour % 12 ? tm->tm_hour % 12 : 12;
}

// What a directive of `strftime` stands for: a longer format, or null if it isn't one of these.
static const char *longer(char kind) {
  switch (kind) {
  case 'c': return "%a %b %e %H:%M:%S %Y";
  case 'D':
  case 'x': return "%m/%d/%y";
  case 'F': return "%Y-%m-%d";
  case 'R': return "%H:%M";
  case 'r': return "%I:%M:%S %p";
  case 'T':
  case 'X': return "%H:%M:%S";
  default: return NULL;
  }
}

// Of weeks that begin so many days ago.
static int week_of_year(const struct tm *tm, int days) {
  cc_check_argument(tm->tm_yday);
  cc_check_argument(days);
  return (tm->tm_yday - days + 7) / 7;
}

// Each directive reads those members alone that C says.
static int put_year(char *text, char kind, const struct tm *tm) {
  cc_check_argument(tm->tm_year);
  long year = 1900l + tm->tm_year;
  int week;
  switch (kind) {
  case 'C': return sprintf(text, "%02ld", floor_divided(year, 100));
  case 'Y': return sprintf(text, "%ld", year);
  case 'y': return sprintf(text, "%02ld", year - 100 * floor_divided(year, 100));
  default: break;
  }
  week = iso_week(tm, &year);
  switch (kind) {
  case 'G': return sprintf(text, "%ld", year);
  case 'g': return sprintf(text, "%02ld", year - 100 * floor_divided(year, 100));
  default: return sprintf(text, "%02d", week);
  }
}

static int put_number(char *text, char kind, const struct tm *tm) {
  struct tm copy = *tm;
  switch (kind) {
  case 'C':
  case 'G':
  case 'g':
  case 'V':
  case 'Y':
  case 'y': return put_year(text, kind, tm);
  case 'd': return sprintf(text, "%02d", tm->tm_mday);
  case 'e': return sprintf(text, "%2d", tm->tm_mday);
  case 'H': return sprintf(text, "%02d", tm->tm_hour);
  case 'I': return sprintf(text, "%02d", hour_of_twelve(tm));
  case 'j': return sprintf(text, "%03d", tm->tm_yday + 1);
  case 'k': return sprintf(text, "%2d", tm->tm_hour);
  case 'l': return sprintf(text, "%2d", hour_of_twelve(tm));
  case 'M': return sprintf(text, "%02d", tm->tm_min);
  case 'm': return sprintf(text, "%02d", tm->tm_mon + 1);
  case 'S': return sprintf(text, "%02d", tm->tm_sec);
  case 's': return sprintf(text, "%ld", seconds_of(&copy, ""));
  case 'U': return sprintf(text, "%02d", week_of_year(tm, tm->tm_wday));
  case 'u': return sprintf(text, "%d", tm->tm_wday ? tm->tm_wday : 7);
  case 'W': return sprintf(text, "%02d", week_of_year(tm, tm->tm_wday ? tm->tm_wday - 1 : 6));
  case 'w': return sprintf(text, "%d", tm->tm_wday);
  default: cc_missing("strftime", kind);
  }
}

static int put_part(char *text, char kind, const struct tm *tm) {
  switch (kind) {
  case 'A': return sprintf(text, "%s", days[tm->tm_wday]);
  case 'a': return sprintf(text, "%.3s", days[tm->tm_wday]);
  case 'B': return sprintf(text, "%s", months[tm->tm_mon]);
  case 'b':
  case 'h': return sprintf(text, "%.3s", months[tm->tm_mon]);
  case 'n': return sprintf(text, "\n");
  case 'P': return sprintf(text, "%s", tm->tm_hour >= 12 ? "pm" : "am");
  case 'p': return sprintf(text, "%s", tm->tm_hour >= 12 ? "PM" : "AM");
  case 't': return sprintf(text, "\t");
  case 'Z': return sprintf(text, "%s", tm->tm_zone ? tm->tm_zone : "UTC");
  case 'z': return sprintf(text, "+0000");
  case '%': return sprintf(text, "%%");
  default: return put_number(text, kind, tm);
  }
}

weak size_t strftime(char *restrict text, size_t room, const char *restrict format, const struct tm *restrict tm) {
  size_t length = 0;
  for (; *format; format++) {
    char part[64];
    size_t size = 1;
    part[0] = *format;
    if (*format == '%') {
      format++;
      if (*format == 'E' || *format == 'O') // other digits and eras: none in the C locale
        format++;
      const char *parts = longer(*format);
      size = parts ? strftime(part, sizeof part, parts, tm) : (size_t)put_part(part, *format, tm);
    }
    if (length + size >= room)
      return 0;
    memcpy(text + length, part, size);
    length += size;
  }
  if (room == 0)
    return 0;
  text[length] = '\0';
  return length;
}
