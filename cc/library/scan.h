// What a directive of `scanf` asks for, and where its characters come from.
#ifndef CC_SCAN_H
#define CC_SCAN_H

#include "library.h"

// Where characters come from: a stream, or else a text.
struct source {
  FILE *stream;
  const char *text;
  size_t count; // characters read
};

struct directive {
  int is_dropped, is_allocated; // `*`, `m`
  long width;                   // 0 without one
  int size;                     // bytes of an integer
  char kind;
  const char *set, *set_end; // of `%[`
};

// What came of a directive: a result was stored, none was wanted, the characters are others, there are none.
enum result { STORED, DROPPED, FAILED, ENDED };

int cc_next(struct source *source);
// Gives a character back that was read last; EOF is none.
void cc_back(struct source *source, int c);
// The first character that is no space.
int cc_skip_space(struct source *source);

enum result cc_scan_integer(struct source *source, const struct directive *directive, va_list *arguments);
enum result cc_scan_float(struct source *source, const struct directive *directive, va_list *arguments);
void cc_store_number(const struct directive *directive, void *to, unsigned long number);

#endif
