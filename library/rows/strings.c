#include "rows.h"

CLEAN(strcasecmp) {
  printf("%d\n", strcasecmp("Word", "wORD"));                             // prints 0
  printf("%d %d\n", strcasecmp("a", "B") < 0, strcasecmp("B", "a") > 0);  // prints 1 1
  printf("%d %d\n", strcasecmp("ab", "A") > 0, strcasecmp("_", "A") < 0); // prints 1 1
  printf("%d\n", strcasecmp("@", "`") != 0);                              // prints 1
}

POISONED(strcasecmp) { // reports branch in strcasecmp, lifetime
  char one[8];
  if (strcasecmp(one, "ab") == 0)
    puts("equal");
}

CLEAN(strncasecmp) {
  printf("%d %d\n", strncasecmp("Word", "wOOD", 2), strncasecmp("Word", "wOOD", 3) > 0); // prints 0 1
  printf("%d %d\n", strncasecmp("a", "A", 9), strncasecmp("x", "y", 0));                 // prints 0 0
}

POISONED(strncasecmp) { // reports branch in strncasecmp, lifetime
  char one[8];
  if (strncasecmp(one, "ab", 2) == 0)
    puts("equal");
}

int main(void) { ROW(); }
