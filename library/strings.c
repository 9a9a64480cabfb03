// The comparisons of <strings.h> that take small and capital letters as equal, in the C locale.
#include "library.h"

#include <strings.h>

static int small(char letter) {
  unsigned char c = letter;
  return c >= 'A' && c <= 'Z' ? c + ('a' - 'A') : c;
}

weak int strcasecmp(const char *one, const char *two) {
  for (; *one && small(*one) == small(*two); one++)
    two++;
  return small(*one) - small(*two);
}

weak int strncasecmp(const char *one, const char *two, size_t most) {
  for (; most > 0; most--, one++, two++)
    if (!*one || small(*one) != small(*two))
      return small(*one) - small(*two);
  return 0;
}
