// `%e`, `%f`, `%g` of `printf`, exactly, by integers alone: a `double` is carried as its 64 bits. Its value is written out in all its
// decimal digits, which are then rounded to nearest, ties to even, as the default mode of IEEE 754 has it.
#include "format.h"
#include "limbs.h"

#include <string.h>

enum { DIGITS = 9 * (35 + 120) }; // 309 in front of the point, 1,074 behind it

// A number by its decimal digits: 0.DIGITS times ten to the power of `point`. No digit is 0 at either end.
struct decimal {
  int length, point;
  char digits[DIGITS];
};

// ---- from bits to digits

static void set_limbs(struct limbs *n, uint64_t mantissa, int exponent) {
  n->first = n->end = WHOLE;
  for (; mantissa; mantissa /= BILLION)
    n->limb[--n->first] = mantissa % BILLION;
  for (int up = exponent; up > 0; up -= 29)
    cc_double_times(n, up < 29 ? up : 29);
  for (int down = -exponent; down > 0; down -= 9)
    cc_halve_times(n, down < 9 ? down : 9);
}

static void write_limb(char *to, uint32_t limb) {
  for (int k = 9; k-- > 0; limb /= 10)
    to[k] = '0' + limb % 10;
}

static void strip(struct decimal *d) {
  while (d->length > 0 && d->digits[d->length - 1] == '0')
    d->length--;
}

static void to_decimal(struct decimal *d, uint64_t mantissa, int exponent) {
  struct limbs limbs;
  while (mantissa && !(mantissa & 1)) {
    mantissa >>= 1;
    exponent++;
  }
  set_limbs(&limbs, mantissa, mantissa ? exponent : 0);
  d->length = 0;
  for (int k = limbs.first; k < limbs.end || k < WHOLE; k++, d->length += 9)
    write_limb(d->digits + d->length, k < limbs.end ? limbs.limb[k] : 0);
  d->point = 9 * (WHOLE - limbs.first);
  int zeros = 0;
  while (zeros < d->length && d->digits[zeros] == '0')
    zeros++;
  memmove(d->digits, d->digits + zeros, d->length - zeros);
  d->length -= zeros;
  d->point = d->length ? d->point - zeros : 1;
  strip(d);
}

// ---- rounding

static int rounds_up(const struct decimal *d, long kept) {
  if (d->digits[kept] != '5')
    return d->digits[kept] > '5';
  return d->length > kept + 1 || (kept > 0 && (d->digits[kept - 1] & 1));
}

// To so many digits, which may be none or less.
static void round_to(struct decimal *d, long kept) {
  if (kept >= d->length)
    return;
  int up = kept >= 0 && rounds_up(d, kept);
  d->length = kept > 0 ? (int)kept : 0;
  if (up) {
    while (d->length > 0 && d->digits[d->length - 1] == '9')
      d->length--;
    if (d->length > 0) {
      d->digits[d->length - 1]++;
      return;
    }
    d->digits[d->length++] = '1';
    d->point++;
  }
  strip(d);
}

// ---- texts

struct text {
  char characters[DIGITS + 16];
  int length;
};

static void append(struct text *text, char c) { text->characters[text->length++] = c; }
static char digit(const struct decimal *d, long k) { return k >= 0 && k < d->length ? d->digits[k] : '0'; }

// The fraction's digits from one on; zeros behind the last known are only counted.
static long append_fraction(struct text *text, const struct decimal *d, long from, long count, int has_point) {
  if (count > 0 || has_point)
    append(text, '.');
  for (; count > 0 && from < d->length; count--)
    append(text, digit(d, from++));
  return count;
}

static long write_fixed(struct text *text, const struct decimal *d, long precision, int has_point) {
  if (d->point <= 0)
    append(text, '0');
  for (int k = 0; k < d->point; k++)
    append(text, digit(d, k));
  return append_fraction(text, d, d->point, precision, has_point);
}

static long write_scientific(struct text *text, const struct decimal *d, long precision, int has_point) {
  append(text, digit(d, 0));
  return append_fraction(text, d, 1, precision, has_point);
}

static void write_exponent(struct text *text, char kind, int exponent) {
  append(text, kind);
  append(text, exponent < 0 ? '-' : '+');
  if (exponent < 0)
    exponent = -exponent;
  if (exponent >= 100)
    append(text, '0' + exponent / 100);
  append(text, '0' + exponent / 10 % 10);
  append(text, '0' + exponent % 10);
}

static void put_finite(struct sink *sink, const struct directive *d, char kind, struct decimal *number, const char *sign) {
  struct text text = {.length = 0}, tail = {.length = 0};
  long precision = d->precision < 0 ? 6 : d->precision;
  int is_general = (kind | 32) == 'g', is_scientific = (kind | 32) == 'e';
  if (is_general) {
    precision = precision ? precision : 1;
    round_to(number, precision);
    int exponent = number->length ? number->point - 1 : 0;
    is_scientific = exponent < -4 || exponent >= precision;
    precision -= is_scientific ? 1 : exponent + 1;
    long known = number->length - (is_scientific ? 1 : number->point);
    if (!d->is_alternate && precision > known)
      precision = known > 0 ? known : 0;
  }
  round_to(number, precision + (is_scientific ? 1 : number->point));
  long zeros;
  if (is_scientific) {
    zeros = write_scientific(&text, number, precision, d->is_alternate);
    write_exponent(&tail, is_general ? kind - 2 : kind, number->length ? number->point - 1 : 0);
  } else {
    zeros = write_fixed(&text, number, precision, d->is_alternate);
  }
  struct number parts = {sign, 0, text.characters, text.length, zeros, tail.characters, tail.length};
  long blanks = d->width - (long)(strlen(sign) + text.length + zeros + tail.length);
  if (d->has_zeros && !d->is_left && blanks > 0)
    parts.zeros = blanks;
  cc_put_number(sink, d, &parts);
}

void cc_put_double(struct sink *sink, const struct directive *d, char kind, unsigned long bits) {
  cc_check_argument(bits);
  const char *sign = bits >> 63 ? "-" : d->has_plus ? "+" : d->has_space ? " " : "";
  int exponent = bits >> 52 & 0x7ff;
  uint64_t mantissa = bits & ((1ul << 52) - 1);
  if (exponent == 0x7ff) {
    int is_small = kind >= 'a';
    struct number parts = {.sign = sign, .digits = mantissa ? is_small ? "nan" : "NAN" : is_small ? "inf" : "INF", .length = 3};
    return cc_put_number(sink, d, &parts);
  }
  struct decimal number;
  to_decimal(&number, exponent ? mantissa | 1ul << 52 : mantissa, (exponent ? exponent : 1) - 1075);
  put_finite(sink, d, kind, &number, sign);
}
