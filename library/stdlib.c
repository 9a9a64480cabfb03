// Numbers from <stdlib.h>: absolute values, numbers in texts, and random ones. malloc, calloc, realloc, free, exit and abort are msan's.
#include "library.h"

#include <errno.h>
#include <limits.h>
#include <stdlib.h>

weak int abs(int number) { return number < 0 ? -number : number; }
weak long labs(long number) { return number < 0 ? -number : number; }
weak long long llabs(long long number) { return number < 0 ? -number : number; }

// ---- numbers in texts

// What a text begins with.
struct number {
  unsigned long magnitude; // ULONG_MAX if it is larger
  int is_negative;
  int is_too_large;
  const char *end; // after the last digit; the text itself if there is none
};

static int is_space(char c) { return c == ' ' || (c >= '\t' && c <= '\r'); }

// What a character counts as a digit, or 36 if it is none in any base.
static unsigned digit(char c) {
  if (c >= '0' && c <= '9')
    return c - '0';
  if (c >= 'a' && c <= 'z')
    return c - 'a' + 10;
  if (c >= 'A' && c <= 'Z')
    return c - 'A' + 10;
  return 36;
}

static int has_prefix(const char *text) { return text[0] == '0' && (text[1] == 'x' || text[1] == 'X') && digit(text[2]) < 16; }

static void read_digits(const char *text, unsigned base, struct number *number) {
  for (; digit(*text) < base; text++) {
    unsigned next = digit(*text);
    if (number->magnitude > (ULONG_MAX - next) / base)
      number->is_too_large = 1;
    number->magnitude = number->magnitude * base + next;
    number->end = text + 1;
  }
  if (number->is_too_large)
    number->magnitude = ULONG_MAX;
}

static struct number *read_number(const char *text, int base, struct number *number) {
  *number = (struct number){.end = text};
  if (base < 0 || base == 1 || base > 36) {
    errno = EINVAL;
    return number;
  }
  while (is_space(*text))
    text++;
  number->is_negative = *text == '-';
  if (*text == '-' || *text == '+')
    text++;
  if ((base == 0 || base == 16) && has_prefix(text)) {
    text += 2;
    base = 16;
  } else if (base == 0) {
    base = *text == '0' ? 8 : 10;
  }
  read_digits(text, base, number);
  return number;
}

static long to_signed(const char *text, char **end, int base) {
  struct number number;
  read_number(text, base, &number);
  if (end)
    *end = (char *)number.end;
  unsigned long most = number.is_negative ? -(unsigned long)LONG_MIN : LONG_MAX;
  if (number.magnitude > most) {
    errno = ERANGE;
    number.magnitude = most;
  }
  return number.is_negative ? -number.magnitude : number.magnitude;
}

static unsigned long to_unsigned(const char *text, char **end, int base) {
  struct number number;
  read_number(text, base, &number);
  if (end)
    *end = (char *)number.end;
  if (number.is_too_large) {
    errno = ERANGE;
    return ULONG_MAX;
  }
  return number.is_negative ? -number.magnitude : number.magnitude;
}

// `long long` is as wide as `long`.
weak long strtol(const char *restrict text, char **restrict end, int base) { return to_signed(text, end, base); }
weak long long strtoll(const char *restrict text, char **restrict end, int base) { return to_signed(text, end, base); }
weak unsigned long strtoul(const char *restrict text, char **restrict end, int base) { return to_unsigned(text, end, base); }
weak unsigned long long strtoull(const char *restrict text, char **restrict end, int base) { return to_unsigned(text, end, base); }
weak int atoi(const char *text) { return (int)to_signed(text, NULL, 10); }
weak long atol(const char *text) { return to_signed(text, NULL, 10); }
weak long long atoll(const char *text) { return to_signed(text, NULL, 10); }

// ---- random numbers

static unsigned long random_state = 1;

weak void srand(unsigned seed) { random_state = seed; }

// The upper bits of a linear congruential generator of 64 bits, with the constants of Knuth's MMIX. Not glibc's numbers.
weak int rand(void) {
  random_state = random_state * 6364136223846793005 + 1442695040888963407;
  return (int)(random_state >> 33);
}
