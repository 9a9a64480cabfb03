// Numbers of the `scanf` family.
#include "scan.h"

#include <limits.h>
#include <stdlib.h>

struct digits {
  struct source *source;
  int c;     // the next character, which is given back if it is none of the number
  long rest; // characters that the width still allows
};

static void advance(struct digits *digits) { digits->c = --digits->rest > 0 ? cc_next(digits->source) : EOF; }

static unsigned value_of(int c) {
  if (c >= '0' && c <= '9')
    return c - '0';
  if (c >= 'a' && c <= 'z')
    return c - 'a' + 10;
  if (c >= 'A' && c <= 'Z')
    return c - 'A' + 10;
  return 36;
}

// As strtol and strtoul: too large a number is the largest one.
static unsigned long limited(unsigned long magnitude, int is_too_large, int is_negative, int is_signed) {
  if (!is_signed)
    return is_too_large ? ULONG_MAX : is_negative ? -magnitude : magnitude;
  unsigned long most = is_negative ? -(unsigned long)LONG_MIN : LONG_MAX;
  if (is_too_large || magnitude > most)
    magnitude = most;
  return is_negative ? -magnitude : magnitude;
}

// Reads a number's characters after a sign. Returns whether there is one.
static int read_magnitude(struct digits *digits, unsigned base, unsigned long *magnitude, int *is_too_large) {
  int is_number = 0;
  if ((base == 0 || base == 16) && digits->c == '0') {
    is_number = 1;
    advance(digits);
    if (digits->c == 'x' || digits->c == 'X') { // "0x" without digits is 0, as glibc has it
      base = 16;
      advance(digits);
    } else if (base == 0) {
      base = 8;
    }
  }
  if (base == 0)
    base = 10;
  const unsigned long most = ULONG_MAX / base, rest = ULONG_MAX % base;
  for (unsigned digit; (digit = value_of(digits->c)) < base; advance(digits)) {
    if (*magnitude >= most && (*magnitude > most || digit > rest))
      *is_too_large = 1;
    *magnitude = *magnitude * base + digit;
    is_number = 1;
  }
  return is_number;
}

void cc_store_number(const struct directive *d, void *to, unsigned long number) {
  if (d->size >= (int)sizeof(long))
    *(unsigned long *)to = number;
  else if (d->size == sizeof(int))
    *(unsigned *)to = (unsigned)number;
  else if (d->size == sizeof(short))
    *(unsigned short *)to = (unsigned short)number;
  else
    *(unsigned char *)to = (unsigned char)number;
}

static unsigned base_of(char kind) { return kind == 'i' ? 0 : kind == 'o' ? 8 : kind == 'd' || kind == 'u' ? 10 : 16; }

enum result cc_scan_integer(struct source *source, const struct directive *d, va_list *arguments) {
  struct digits digits = {source, cc_skip_space(source), d->width ? d->width : LONG_MAX};
  if (digits.c == EOF)
    return ENDED;
  int is_negative = digits.c == '-', is_too_large = 0;
  unsigned long magnitude = 0;
  if (digits.c == '-' || digits.c == '+')
    advance(&digits);
  int is_number = read_magnitude(&digits, base_of(d->kind), &magnitude, &is_too_large);
  cc_back(source, digits.c);
  if (!is_number)
    return FAILED;
  if (d->is_dropped)
    return DROPPED;
  cc_store_number(d, va_arg(*arguments, void *), limited(magnitude, is_too_large, is_negative, d->kind == 'd' || d->kind == 'i'));
  return STORED;
}

// ---- floating point: its characters, for strtod

struct item {
  char text[1200]; // as many digits as a `double` can have, and more
  int length;
};

static void accept(struct digits *digits, struct item *item) {
  if (item->length < (int)sizeof item->text - 1)
    item->text[item->length++] = (char)digits->c;
  advance(digits);
}

static int accept_digits(struct digits *digits, struct item *item) {
  int count = 0;
  for (; digits->c >= '0' && digits->c <= '9'; count++)
    accept(digits, item);
  return count;
}

static void accept_sign(struct digits *digits, struct item *item) {
  if (digits->c == '-' || digits->c == '+')
    accept(digits, item);
}

// An exponent without digits is read, and left out of the number, as glibc has it.
static int accept_float(struct digits *digits, struct item *item) {
  accept_sign(digits, item);
  int count = accept_digits(digits, item);
  if (digits->c == '.') {
    accept(digits, item);
    count += accept_digits(digits, item);
  }
  if (count == 0 || (digits->c != 'e' && digits->c != 'E'))
    return count > 0;
  accept(digits, item);
  accept_sign(digits, item);
  accept_digits(digits, item);
  return 1;
}

enum result cc_scan_float(struct source *source, const struct directive *d, va_list *arguments) {
  struct digits digits = {source, cc_skip_space(source), d->width ? d->width : LONG_MAX};
  struct item item = {.length = 0};
  if (digits.c == EOF)
    return ENDED;
  int is_number = accept_float(&digits, &item);
  cc_back(source, digits.c);
  item.text[item.length] = '\0';
  if (!is_number)
    return FAILED;
  if (d->is_dropped)
    return DROPPED;
  if (d->size > (int)sizeof(double))
    cc_missing("scanf", d->kind);
  if (d->size == sizeof(double))
    *va_arg(*arguments, double *) = strtod(item.text, NULL);
  else
    *va_arg(*arguments, float *) = strtof(item.text, NULL);
  return STORED;
}
