// strtod, strtof, atof: the number nearest to a text, ties to even, by integers alone: a `double` is carried as its 64 bits. The text's
// digits are halved or doubled until as many bits stand in front of the point as a `double` has; what is behind it says how to round.
#include "library.h"
#include "limbs.h"

#include <errno.h>
#include <limits.h>
#include <stdlib.h>

// Bits of the mantissa, the exponents of the last one, where infinity begins.
struct shape {
  int bits, least, most;
};
static const struct shape of_double = {53, -1074, 971}, of_float = {24, -149, 104};

// A text's number before it is rounded: limbs times two to the power of `exponent`.
struct number {
  struct limbs limbs;
  int exponent;
};

// ---- rounding

static uint64_t whole(const struct limbs *n) {
  uint64_t whole = 0;
  for (int k = n->first; k < WHOLE; k++)
    whole = whole * BILLION + (k < n->end ? n->limb[k] : 0);
  return whole;
}

static int is_over(const struct limbs *n, uint64_t bound) { return n->first < WHOLE - 2 || whole(n) >= bound; }

// Whether the digits behind the point are more than a half, or a half behind an odd number.
static int rounds_up(const struct limbs *n, uint64_t whole) {
  uint32_t first = n->first <= WHOLE && n->end > WHOLE ? n->limb[WHOLE] : 0;
  if (first != BILLION / 2)
    return first > BILLION / 2;
  return n->end > WHOLE + 1 || (whole & 1);
}

static void normalise(struct number *number, const struct shape *shape) {
  struct limbs *n = &number->limbs;
  for (; n->first < WHOLE - 2 && n->first < n->end; number->exponent += 9)
    cc_halve_times(n, 9);
  for (; is_over(n, 1ul << shape->bits) || number->exponent < shape->least; number->exponent++)
    cc_halve_times(n, 1);
  while (n->first < n->end && number->exponent > shape->least && !is_over(n, 1ul << (shape->bits - 1))) {
    int times = is_over(n, 1) ? 1 : 29;
    if (is_over(n, 1) && !is_over(n, 1ul << (shape->bits - 21)))
      times = 20;
    if (times > number->exponent - shape->least)
      times = number->exponent - shape->least;
    cc_double_times(n, times);
    number->exponent -= times;
    for (; is_over(n, 1ul << shape->bits); number->exponent++)
      cc_halve_times(n, 1);
  }
}

// The bits of the number, without a sign. Sets `errno` where it is too large or was rounded below the normal ones.
static uint64_t rounded(struct number *number, const struct shape *shape) {
  const uint64_t normal = 1ul << (shape->bits - 1);
  normalise(number, shape);
  uint64_t mantissa = whole(&number->limbs);
  int is_exact = number->limbs.end <= WHOLE;
  mantissa += rounds_up(&number->limbs, mantissa);
  if (mantissa == 2 * normal) {
    mantissa = normal;
    number->exponent++;
  }
  if (mantissa < normal) {
    if (!is_exact)
      errno = ERANGE;
    return mantissa;
  }
  if (number->exponent > shape->most) {
    errno = ERANGE;
    return (uint64_t)(shape->most - shape->least + 2) << (shape->bits - 1);
  }
  return ((uint64_t)(number->exponent - shape->least + 1) << (shape->bits - 1)) + (mantissa - normal);
}

// ---- reading

static int is_digit(char c) { return c >= '0' && c <= '9'; }

// An exponent, kept within what matters; moves on behind it if there is one.
static long read_exponent(const char **text) {
  const char *at = *text;
  if ((*at | 32) != 'e')
    return 0;
  int is_negative = *++at == '-';
  at += *at == '-' || *at == '+';
  if (!is_digit(*at))
    return 0;
  long exponent = 0;
  for (; is_digit(*at); at++)
    if (exponent < 100000)
      exponent = exponent * 10 + (*at - '0');
  *text = at;
  return is_negative ? -exponent : exponent;
}

// Puts a digit where it belongs: so many places in front of the point, negative behind it.
static void put_digit(struct limbs *n, int digit, long place) {
  static const uint32_t tens[] = {1, 10, 100, 1000, 10000, 100000, 1000000, 10000000, 100000000};
  int limb = place >= 0 ? WHOLE - 1 - (int)(place / 9) : WHOLE + (int)((-place - 1) / 9);
  int power = place >= 0 ? (int)(place % 9) : 8 - (int)((-place - 1) % 9);
  if (n->first == n->end)
    n->first = n->end = limb;
  for (; n->end <= limb; n->end++)
    n->limb[n->end] = 0;
  n->limb[limb] += digit * tens[power];
}

// The digits from the first that isn't 0. Of more than 800 what follows matters only by not being 0.
static void set_digits(struct limbs *n, const char *digits, const char *end, long point) {
  const char *at = digits;
  long place = point - 1;
  int is_more = 0;
  for (int count = 0; at < end; at++) {
    if (*at == '.')
      continue;
    if (count < 800)
      put_digit(n, *at - '0', place);
    else
      is_more |= *at != '0';
    count++;
    place--;
  }
  if (is_more)
    put_digit(n, 1, n->end > WHOLE ? -9l * (n->end - WHOLE) - 1 : -1);
}

static uint64_t read_decimal(const char **text, const struct shape *shape) {
  const char *at = *text, *first = NULL;
  long point = 0; // digits in front of it, from the first that isn't 0
  int has_point = 0, has_digit = 0;
  for (; is_digit(*at) || (*at == '.' && !has_point); at++) {
    has_point |= *at == '.';
    has_digit |= *at != '.';
    if (!first && *at != '.' && *at != '0')
      first = at;
    if (*at != '.')
      point += first ? !has_point : -has_point;
  }
  if (!has_digit)
    return 0;
  const char *end = at;
  point += read_exponent(&at);
  *text = at;
  struct number number = {.limbs.first = WHOLE, .limbs.end = WHOLE};
  if (!first)
    return 0;
  if (point > 310 || point < -345) {
    errno = ERANGE;
    return point > 310 ? (uint64_t)(shape->most - shape->least + 2) << (shape->bits - 1) : 0;
  }
  set_digits(&number.limbs, first, end, point);
  return rounded(&number, shape);
}

static int begins(const char *text, const char *word) {
  for (; *word; word++)
    if ((*text++ | 32) != *word)
      return 0;
  return 1;
}

static uint64_t read_number(const char *text, char **end, const struct shape *shape) {
  const char *at = text;
  while (*at == ' ' || (*at >= '\t' && *at <= '\r'))
    at++;
  uint64_t sign = *at == '-';
  at += *at == '-' || *at == '+';
  const char *start = at;
  uint64_t bits, infinity = (uint64_t)(shape->most - shape->least + 2) << (shape->bits - 1);
  if (begins(at, "inf")) {
    at += begins(at, "infinity") ? 8 : 3;
    bits = infinity;
  } else if (begins(at, "nan")) {
    at += 3;
    bits = infinity | 1ul << (shape->bits - 2);
  } else {
    if (*at == '0' && (at[1] | 32) == 'x')
      cc_missing("strtod", 'a');
    bits = read_decimal(&at, shape);
  }
  if (end)
    *end = (char *)(at == start ? text : at);
  return at == start ? 0 : bits | sign << (shape == &of_double ? 63 : 31);
}

weak double strtod(const char *restrict text, char **restrict end) {
  union {
    uint64_t bits;
    double number;
  } made = {.bits = read_number(text, end, &of_double)};
  return made.number;
}
weak double atof(const char *text) { return strtod(text, NULL); }
weak float strtof(const char *restrict text, char **restrict end) {
  union {
    uint32_t bits;
    float number;
  } made = {.bits = (uint32_t)read_number(text, end, &of_float)};
  return made.number;
}
