// `%e`, `%f` and `%g` of 2,000 random numbers, handed over by their bits; strtod, strtof and scanf of 300 texts.
// steps: 1000000000
#include <stdint.h>
#include <stdio.h>
#include <stdlib.h>
#include <string.h>

static uint64_t state = 88172645463325252u;
static uint64_t next(void) {
  state ^= state << 13;
  state ^= state >> 7;
  return state ^= state << 17;
}

static const double known[] = {0,       -0.0,      1,
                               0.1,     0.5,       1.5,
                               2.5,     9.5,       99.5,
                               0.05,    9.9999995, 1e100,
                               1e-100,  5e-324,    1.7976931348623157e308,
                               0.0001,  0.00001,   123456,
                               1234567, 1e15,      1e16,
                               1e17,    0.3,       3.14159265358979,
                               1e21,    100,       2.2250738585072014e-308};

static double number(void) {
  uint64_t bits = next();
  if (bits >> 62 == 0)
    return known[next() % (sizeof known / sizeof *known)];
  if (bits >> 62 == 1) // near 1
    bits = (bits & ~(0x7fful << 52)) | (1000 + (next() >> 10) % 46) << 52;
  if ((bits >> 52 & 0x7ff) == 0x7ff)
    bits &= ~(1ul << 52);
  double number;
  memcpy(&number, &bits, sizeof number);
  return number;
}

static void format(char *to) {
  *to++ = '%';
  for (int k = next() >> 9 & 3; k > 0; k--)
    *to++ = "-+ 0"[(next() >> 7) % 4];
  if (next() >> 5 & 1)
    to += sprintf(to, "%d", (int)(next() >> 9) % 30 + 1);
  if (next() >> 5 & 1)
    to += sprintf(to, ".%d", (int)(next() >> 40) % 20);
  *to++ = "eEfFgG"[(next() >> 11) % 6];
  *to = '\0';
}

static void show(double number, float small) {
  uint64_t bits;
  uint32_t small_bits;
  memcpy(&bits, &number, sizeof bits);
  memcpy(&small_bits, &small, sizeof small_bits);
  printf("%lx %x\n", bits, small_bits);
}

static void from_texts(void) {
  static const char *const texts[] = {"0",
                                      "-0",
                                      "1",
                                      "+.5",
                                      "5.",
                                      ".",
                                      "-",
                                      "1e",
                                      "1e+",
                                      "1e5x",
                                      "  3.25e-2",
                                      "1e400",
                                      "-1e400",
                                      "1e-400",
                                      "4.9e-324",
                                      "2e-324",
                                      "123456789012345678901234567890",
                                      "0.1",
                                      "inf",
                                      "-infinityx",
                                      "9007199254740993",
                                      "1.7976931348623159e308",
                                      "2.2250738585072011e-308",
                                      "00012.50",
                                      "abc",
                                      "",
                                      "1.5.5",
                                      "-.e3"};
  for (unsigned k = 0; k < sizeof texts / sizeof *texts; k++) {
    char *end;
    double number = strtod(texts[k], &end);
    show(number, strtof(texts[k], NULL));
    double scanned = 0;
    float small = 0;
    printf("%td\n", end - texts[k]);
    if (strchr(texts[k], 'n')) // infinity is none of the library's `scanf`
      continue;
    int count = sscanf(texts[k], "%lf", &scanned);
    printf("%d %d\n", count, sscanf(texts[k], "%4f", &small));
    show(scanned, small);
  }
  for (int k = 0; k < 300; k++) {
    char text[60];
    snprintf(text, sizeof text, "%.*e", (int)(next() >> 40) % 30, number());
    show(atof(text), strtof(text, NULL));
  }
}

int main(void) {
  from_texts();
  for (int k = 0; k < 2000; k++) {
    char what[40], text[800];
    format(what);
    int length = snprintf(text, sizeof text, what, number());
    printf("%s %.60s %d\n", what, text, length);
  }
#ifdef P1
  double unset;          // P1 root
  printf("%f\n", unset); // P1: branch in format.c
#endif
  return 0;
}
