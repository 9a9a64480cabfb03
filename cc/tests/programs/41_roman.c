// Numbers in Roman letters, in words, and in every base.
#include <ctype.h>
#include <stdio.h>
#include <stdlib.h>
#include <string.h>

static char *roman(int n, char *to) {
  static const struct {
    int value;
    const char *text;
  } digits[] = {{1000, "M"}, {900, "CM"}, {500, "D"}, {400, "CD"}, {100, "C"}, {90, "XC"}, {50, "L"}, {40, "XL"}, {10, "X"}, {9, "IX"}, {5, "V"}, {4, "IV"}, {1, "I"}};
  *to = 0;
  for (size_t k = 0; k < sizeof digits / sizeof *digits; k++)
    for (; n >= digits[k].value; n -= digits[k].value)
      strcat(to, digits[k].text);
  return to;
}
static int from_roman(const char *s) {
  int total = 0, before = 0;
  for (size_t k = strlen(s); k-- > 0;) {
    int v = 0;
    switch (toupper((unsigned char)s[k])) {
    case 'I': v = 1; break;
    case 'V': v = 5; break;
    case 'X': v = 10; break;
    case 'L': v = 50; break;
    case 'C': v = 100; break;
    case 'D': v = 500; break;
    case 'M': v = 1000; break;
    }
    total += v < before ? -v : v;
    if (v > before)
      before = v;
  }
  return total;
}
static void words(int n) {
  static const char *const small[] = {"zero", "one", "two", "three", "four", "five", "six", "seven", "eight", "nine", "ten", "eleven", "twelve", "thirteen",
                                      "fourteen", "fifteen", "sixteen", "seventeen", "eighteen", "nineteen"};
  static const char *const tens[] = {"", "", "twenty", "thirty", "forty", "fifty", "sixty", "seventy", "eighty", "ninety"};
  if (n >= 1000) {
    words(n / 1000);
    printf(" thousand");
    if (n % 1000)
      putchar(' ');
  }
  if ((n %= 1000) >= 100) {
    printf("%s hundred%s", small[n / 100], n % 100 ? " and " : "");
    n %= 100;
    if (!n)
      return;
  }
  if (n >= 20)
    printf("%s%s%s", tens[n / 10], n % 10 ? "-" : "", n % 10 ? small[n % 10] : "");
  else if (n)
    printf("%s", small[n]);
}
static char *in_base(unsigned long n, int base, char *end) {
  *--end = 0;
  do
    *--end = "0123456789abcdefghijklmnopqrstuvwxyz"[n % base];
  while (n /= base);
  return end;
}

int main(void) {
  static const int numbers[] = {1, 4, 14, 49, 90, 444, 1999, 2024, 3888};
  for (int k = 0; k < 9; k++) {
    char letters[20], digits[70];
    printf("%4d %-14s ", numbers[k], roman(numbers[k], letters));
    words(numbers[k]);
    printf(" %s", in_base(numbers[k], 2, digits + sizeof digits));
    printf(" %s %d\n", in_base(numbers[k], 36, digits + sizeof digits), from_roman(letters) == numbers[k]);
  }
  return 0;
}
