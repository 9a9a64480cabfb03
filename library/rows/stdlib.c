#include "rows.h"

CLEAN(abs) {
  printf("%d %d %d %d\n", abs(3), abs(-3), abs(0), abs(-INT_MAX)); // prints 3 3 0 2147483647
}

CLEAN(labs) {
  printf("%ld %ld %ld\n", labs(3), labs(-3), labs(-LONG_MAX)); // prints 3 3 9223372036854775807
}

CLEAN(llabs) {
  printf("%d %d\n", llabs(3) == 3, llabs(-LLONG_MAX) == LLONG_MAX); // prints 1 1
}

// ---- numbers in texts

// A number, how many characters were read, and `errno`.
#define NUMBER(read, text, base) \
  errno = 0; \
  { \
    char *end; \
    const char *start = text; \
    long number = (long)read(start, &end, base); \
    printf("%ld %ld %s\n", number, end - start, errno == ERANGE ? "ERANGE" : errno == 0 ? "0" : "other"); \
  }

CLEAN(strtol) {
  NUMBER(strtol, "12", 10);                     // prints 12 2 0
  NUMBER(strtol, " \t\n-12x", 10);              // prints -12 6 0
  NUMBER(strtol, "+7", 0);                      // prints 7 2 0
  NUMBER(strtol, "0x1fz", 0);                   // prints 31 4 0
  NUMBER(strtol, "0X1F", 16);                   // prints 31 4 0
  NUMBER(strtol, "0xg", 16);                    // prints 0 1 0
  NUMBER(strtol, "0x", 0);                      // prints 0 1 0
  NUMBER(strtol, "0178", 0);                    // prints 15 3 0
  NUMBER(strtol, "zZ9", 36);                    // prints 46629 3 0
  NUMBER(strtol, "102", 2);                     // prints 2 2 0
  NUMBER(strtol, "", 10);                       // prints 0 0 0
  NUMBER(strtol, " -x", 10);                    // prints 0 0 0
  NUMBER(strtol, "- 1", 10);                    // prints 0 0 0
  NUMBER(strtol, "9223372036854775807", 10);    // prints 9223372036854775807 19 0
  NUMBER(strtol, "9223372036854775808", 10);    // prints 9223372036854775807 19 ERANGE
  NUMBER(strtol, "-9223372036854775808", 10);   // prints -9223372036854775808 20 0
  NUMBER(strtol, "-9223372036854775809", 10);   // prints -9223372036854775808 20 ERANGE
  NUMBER(strtol, "99999999999999999999999", 10); // prints 9223372036854775807 23 ERANGE
  printf("%ld\n", strtol("5", NULL, 10));       // prints 5
}

POISONED(strtol) { // reports branch in is_space, stored in is_space, lifetime
  char text[8];
  printf("%ld\n", strtol(text, NULL, 10));
}

CLEAN(strtoll) {
  NUMBER(strtoll, " -12x", 10);                // prints -12 4 0
  NUMBER(strtoll, "-9223372036854775809", 10); // prints -9223372036854775808 20 ERANGE
}

POISONED(strtoll) { // reports branch in is_space, stored in is_space, lifetime
  char text[8];
  printf("%d\n", strtoll(text, NULL, 10) == 1);
}

CLEAN(strtoul) {
  NUMBER(strtoul, "12", 10);                    // prints 12 2 0
  NUMBER(strtoul, "-1", 10);                    // prints -1 2 0
  NUMBER(strtoul, "18446744073709551615", 10);  // prints -1 20 0
  NUMBER(strtoul, "18446744073709551614", 10);  // prints -2 20 0
  NUMBER(strtoul, "18446744073709551616", 10);  // prints -1 20 ERANGE
  NUMBER(strtoul, "-18446744073709551616", 10); // prints -1 21 ERANGE
  NUMBER(strtoul, "ffffffffffffffff", 16);      // prints -1 16 0
  NUMBER(strtoul, "x", 10);                     // prints 0 0 0
}

POISONED(strtoul) { // reports branch in is_space, stored in is_space, lifetime
  char text[8];
  printf("%lu\n", strtoul(text, NULL, 10));
}

CLEAN(strtoull) {
  NUMBER(strtoull, " 12x", 10);                 // prints 12 3 0
  NUMBER(strtoull, "18446744073709551616", 10); // prints -1 20 ERANGE
}

POISONED(strtoull) { // reports branch in is_space, stored in is_space, lifetime
  char text[8];
  printf("%d\n", strtoull(text, NULL, 10) == 1);
}

CLEAN(atoi) {
  printf("%d %d %d %d\n", atoi("12"), atoi(" -12x"), atoi("x"), atoi("010")); // prints 12 -12 0 10
}

POISONED(atoi) { // reports branch in digit, stored in digit, malloc
  char *text = malloc(8);
  text[0] = '1';
  printf("%d\n", atoi(text));
}

CLEAN(atol) {
  printf("%ld %ld\n", atol("9223372036854775807"), atol(" -12x")); // prints 9223372036854775807 -12
}

POISONED(atol) { // reports branch in is_space, stored in is_space, lifetime
  char text[8];
  printf("%ld\n", atol(text));
}

CLEAN(atoll) {
  printf("%d %d\n", atoll("9223372036854775807") == LLONG_MAX, atoll(" -12x") == -12); // prints 1 1
}

POISONED(atoll) { // reports branch in is_space, stored in is_space, lifetime
  char text[8];
  printf("%d\n", atoll(text) == 1);
}

// ---- random numbers

CLEAN(rand) {
  int in_range = 0, first = rand();
  for (int k = 0; k < 1000; k++) {
    int number = rand();
    in_range += number >= 0 && number <= RAND_MAX;
  }
  srand(1);
  printf("%d %d\n", in_range, rand() == first); // prints 1000 1
}

CLEAN(srand) {
  srand(7);
  int first = rand(), second = rand();
  srand(8);
  int other = rand();
  srand(7);
  printf("%d %d %d\n", rand() == first, rand() == second, other == first); // prints 1 1 0
}

POISONED(srand) { // reports branch in poisoned_srand, stored in rand, stored in srand, stored in srand, lifetime
  unsigned seed;
  srand(seed);
  if (rand() & 1)
    puts("heads");
}

int main(void) { ROW(); }
