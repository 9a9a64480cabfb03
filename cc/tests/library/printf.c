// steps: 1000000000
// 3,000 random formats of the printf family with random values: integers of each size, pointers, texts, characters, `*`, `%n`. A sum is printed for
// each fifty; with -DSHOW each format and text.
#include <stdarg.h>
#include <stdint.h>
#include <stdio.h>
#include <string.h>

static uint64_t state = 88172645463325252u;
static unsigned below(unsigned bound) {
  state ^= state << 13;
  state ^= state >> 7;
  state ^= state << 17;
  return (unsigned)(state >> 33) % bound;
}

static const long values[] = {0,
                              1,
                              -1,
                              7,
                              8,
                              9,
                              10,
                              42,
                              -42,
                              99,
                              100,
                              127,
                              128,
                              -128,
                              255,
                              256,
                              32767,
                              -32768,
                              65535,
                              65536,
                              123456789,
                              -123456789,
                              2147483647,
                              -2147483648,
                              4294967295,
                              4294967296,
                              1234567890123456789,
                              -1234567890123456789,
                              INT64_MAX,
                              INT64_MIN};
static long value(void) {
  if (below(3))
    return values[below(sizeof values / sizeof *values)];
  uint64_t high = below(1u << 30), low = below(1u << 30);
  return (long)((high << 34 ^ low) >> below(64));
}

static const char *const texts[] = {"", "a", "hello", "%d", "a longer text, of more than thirty-two characters", "tab\there"};

static unsigned long sum = 14695981039346656037u;
static void note(const char *format, const char *text, int count) {
#ifdef SHOW
  printf("%s|%s|%d\n", format, text, count);
#endif
  for (; *text; text++)
    sum = (sum ^ (unsigned char)*text) * 1099511628211;
  sum = (sum ^ (unsigned)count) * 1099511628211;
}

static char text[400], format[100];

static int call(const char *what, ...) {
  va_list list;
  va_start(list, what);
  int count = vsnprintf(text, below(4) ? sizeof text : below(30) + 1, what, list);
  va_end(list);
  return count;
}

// Appends flags, width and precision; returns how many `*` there are.
static int decorate(const char *flags, int *stars) {
  char *end = format + strlen(format);
  int count = 0;
  for (unsigned k = below(4); k > 0; k--)
    *end++ = flags[below(strlen(flags))];
  if (below(8) == 0) {
    *end++ = '*';
    stars[count++] = (int)below(40) - 20;
  } else if (below(2)) {
    end += sprintf(end, "%u", below(30) + 1);
  }
  if (below(3) == 0) {
    *end++ = '.';
    if (below(6) == 0) {
      *end++ = '*';
      stars[count++] = (int)below(24) - 4;
    } else if (below(5)) {
      end += sprintf(end, "%u", below(25));
    }
  }
  *end = 0;
  return count;
}

static int with_stars(int count, const int *stars, int size, long v) {
#define CALL(v) (count == 0 ? call(format, v) : count == 1 ? call(format, stars[0], v) : call(format, stars[0], stars[1], v))
  switch (size) {
  case 1: return CALL((int)v);
  case 2: return CALL((long)v);
  default: return CALL((const char *)v);
  }
}

static void integer(void) {
  static const char *const sizes[] = {"hh", "h", "", "l", "ll", "j", "z", "t"};
  int stars[2], size = below(8);
  char kind = "diuxXo"[below(6)];
  strcpy(format, below(2) ? "<%" : "%");
  int count = decorate(kind == 'd' || kind == 'i' ? "-+ 0" : kind == 'u' ? "-0" : "-#0", stars);
  sprintf(format + strlen(format), "%s%c%s", sizes[size], kind, below(2) ? ">" : "");
  note(format, text, with_stars(count, stars, size < 3 ? 1 : 2, value()));
}

static void word(void) {
  int stars[2];
  char kind = "spc"[below(3)];
  strcpy(format, below(2) ? "[%" : "%");
  int count = 0;
  if (kind == 's')
    count = decorate("-", stars);
  else
    sprintf(format + strlen(format), "%s%u", below(2) ? "-" : "", below(30) + 1);
  sprintf(format + strlen(format), "%c", kind);
  if (kind == 's')
    note(format, text, with_stars(count, stars, 3, (long)texts[below(6)]));
  else if (kind == 'p')
    note(format, text, call(format, (void *)value()));
  else
    note(format, text, call(format, 1 + below(255)));
}

static void counts(void) {
  int a = 0;
  signed char b = 0;
  short c = 0;
  long d = 0;
  note("several", text, call("%d%n %s%hhn 100%%%hn %lu%c%ln", 5, &a, texts[below(6)], &b, &c, 77ul, 'x', &d));
  note("counts", text, a * 1000 + b + c + (int)d);
}

int main(void) {
  for (int k = 0; k < 3000; k++) {
    k % 20 == 0 ? counts() : below(4) ? integer() : word();
    if (k % 50 == 49)
      printf("%d: %lx\n", k, sum);
  }
  return 0;
}
