#include "rows.h"

enum { NONE = -2 };

static int first = NONE;

// The next character, and whether it belongs to those that are printed, as `65-90 97-122 ` for letters.
static void range(int c, int holds) {
  if (holds && first == NONE)
    first = c;
  if (!holds && first != NONE) {
    printf("%d-%d ", first, c - 1);
    first = NONE;
  }
}

// The characters, and EOF, for which a condition on `c` holds.
#define CHARACTERS(condition) \
  for (int c = EOF; c <= 256; c++) \
    range(c, c < 256 && (condition)); \
  puts(".")

// The macro of a header, and the function. In the poisoned row an unset character goes through the function.
#define BOTH(is) \
  CHARACTERS(is(c)); \
  CHARACTERS((is)(c))
#define UNSET(is) \
  int c; \
  if ((is)(c)) \
    puts("it is")

CLEAN(isdigit) {
  BOTH(isdigit);
  // prints 48-57 .
  // prints 48-57 .
}

POISONED(isdigit) { // reports branch in poisoned_isdigit, stored in between, stored in isdigit, lifetime
  UNSET(isdigit);
}

CLEAN(isupper) {
  BOTH(isupper);
  // prints 65-90 .
  // prints 65-90 .
}

CLEAN(islower) {
  BOTH(islower);
  // prints 97-122 .
  // prints 97-122 .
}

CLEAN(isalpha) {
  BOTH(isalpha);
  // prints 65-90 97-122 .
  // prints 65-90 97-122 .
}

CLEAN(isalnum) {
  BOTH(isalnum);
  // prints 48-57 65-90 97-122 .
  // prints 48-57 65-90 97-122 .
}

CLEAN(isxdigit) {
  BOTH(isxdigit);
  // prints 48-57 65-70 97-102 .
  // prints 48-57 65-70 97-102 .
}

CLEAN(isblank) {
  BOTH(isblank);
  // prints 9-9 32-32 .
  // prints 9-9 32-32 .
}

POISONED(isblank) { // reports branch in poisoned_isblank, stored in isblank, lifetime
  UNSET(isblank);
}

CLEAN(isspace) {
  BOTH(isspace);
  // prints 9-13 32-32 .
  // prints 9-13 32-32 .
}

CLEAN(iscntrl) {
  BOTH(iscntrl);
  // prints 0-31 127-127 .
  // prints 0-31 127-127 .
}

CLEAN(isprint) {
  BOTH(isprint);
  // prints 32-126 .
  // prints 32-126 .
}

CLEAN(isgraph) {
  BOTH(isgraph);
  // prints 33-126 .
  // prints 33-126 .
}

CLEAN(ispunct) {
  BOTH(ispunct);
  // prints 33-47 58-64 91-96 123-126 .
  // prints 33-47 58-64 91-96 123-126 .
}

CLEAN(tolower) {
  CHARACTERS(tolower(c) != c); // prints 65-90 .
  for (int c = 'A'; c <= 'Z'; c++)
    putchar(tolower(c));
  puts(""); // prints abcdefghijklmnopqrstuvwxyz
}

CLEAN(toupper) {
  CHARACTERS(toupper(c) != c); // prints 97-122 .
  for (int c = 'a'; c <= 'z'; c++)
    putchar(toupper(c));
  puts(""); // prints ABCDEFGHIJKLMNOPQRSTUVWXYZ
}

POISONED(toupper) { // reports value in poisoned_toupper, stored in between, stored in toupper, lifetime
  char c;
  putchar(toupper(c));
}

CLEAN(__ctype_b_loc) {
  char minus_two = -2;
  printf("%d %d\n", isalpha(minus_two) != 0, isprint(EOF) != 0); // prints 0 0
}

POISONED(__ctype_b_loc) { // reports address in poisoned___ctype_b_loc, lifetime
  char c;
  if (isdigit(c))
    puts("a digit");
}

int main(void) { ROW(); }
