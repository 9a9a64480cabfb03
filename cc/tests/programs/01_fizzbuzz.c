// FizzBuzz from a table of rules.
#include <stdio.h>
#include <string.h>

struct rule {
  int divisor;
  const char *word;
};

static const char *answer(int n, const struct rule *rules, int count, char *out) {
#ifndef P1
  out[0] = '\0';
#endif
  for (int i = 0; i < count; i++)
    if (n % rules[i].divisor == 0)
      strcat(out, rules[i].word);
  if (strlen(out) == 0) // P1: string "strlen"
    sprintf(out, "%d", n);
  return out;
}

int main(void) {
  struct rule rules[] = {{3, "Fizz"}, {5, "Buzz"}, {7, "Bang"}};
  char out[16]; // P1 root
  for (int n = 1; n <= 35; n++)
    printf("%s%s", answer(n, rules, 3, out), n % 7 == 0 ? "\n" : " ");
  return 0;
}
