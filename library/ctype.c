// The functions of <ctype.h>, in the C locale, and the table that the macros of glibc's header read.
//
// The functions neither branch nor read memory. So an uninitialised character is reported where the program uses the result.
#define _GNU_SOURCE
#define __NO_CTYPE // no macros instead of functions
#include "library.h"

#include <ctype.h>

static int between(int c, unsigned first, unsigned last) { return (unsigned)c - first <= last - first; }

static int is_letter(int c) { return between(c, 'A', 'Z') | between(c, 'a', 'z'); }

weak int isdigit(int c) { return between(c, '0', '9'); }
weak int isupper(int c) { return between(c, 'A', 'Z'); }
weak int islower(int c) { return between(c, 'a', 'z'); }
weak int isalpha(int c) { return is_letter(c); }
weak int isalnum(int c) { return is_letter(c) | between(c, '0', '9'); }
weak int isxdigit(int c) { return between(c, '0', '9') | between(c, 'A', 'F') | between(c, 'a', 'f'); }
weak int isblank(int c) { return (c == ' ') | (c == '\t'); }
weak int isspace(int c) { return (c == ' ') | between(c, '\t', '\r'); }
weak int iscntrl(int c) { return between(c, 0, 31) | (c == 127); }
weak int isprint(int c) { return between(c, ' ', '~'); }
weak int isgraph(int c) { return between(c, '!', '~'); }
weak int ispunct(int c) {
  return between(c, '!', '/') | between(c, ':', '@') | between(c, '[', '`') | between(c, '{', '~');
}

// The bit 32 tells a small letter from its capital.
weak int tolower(int c) { return c | between(c, 'A', 'Z') << 5; }
weak int toupper(int c) { return c & ~(between(c, 'a', 'z') << 5); }

enum {
  FIRST = -128, // as a `char`; EOF is among them
  PRINTED = _ISprint | _ISgraph,
  PUNCTUATION = PRINTED | _ISpunct,
  DIGIT = PRINTED | _ISalnum | _ISdigit | _ISxdigit,
  CAPITAL = PRINTED | _ISalnum | _ISalpha | _ISupper,
  SMALL = PRINTED | _ISalnum | _ISalpha | _ISlower,
};

static const unsigned short classes[256 - FIRST] = {
    [0 - FIRST ... '\b' - FIRST] = _IScntrl,
    ['\t' - FIRST] = _IScntrl | _ISspace | _ISblank,
    ['\n' - FIRST ... '\r' - FIRST] = _IScntrl | _ISspace,
    ['\r' + 1 - FIRST ... ' ' - 1 - FIRST] = _IScntrl,
    [' ' - FIRST] = _ISprint | _ISspace | _ISblank,
    ['!' - FIRST ... '/' - FIRST] = PUNCTUATION,
    ['0' - FIRST ... '9' - FIRST] = DIGIT,
    [':' - FIRST ... '@' - FIRST] = PUNCTUATION,
    ['A' - FIRST ... 'F' - FIRST] = CAPITAL | _ISxdigit,
    ['G' - FIRST ... 'Z' - FIRST] = CAPITAL,
    ['[' - FIRST ... '`' - FIRST] = PUNCTUATION,
    ['a' - FIRST ... 'f' - FIRST] = SMALL | _ISxdigit,
    ['g' - FIRST ... 'z' - FIRST] = SMALL,
    ['{' - FIRST ... '~' - FIRST] = PUNCTUATION,
    [127 - FIRST] = _IScntrl,
};

weak const unsigned short **__ctype_b_loc(void) {
  static const unsigned short *start;
  start = classes - FIRST;
  return &start;
}
