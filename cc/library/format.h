// What a directive of `printf` asks for, and where its characters go.
#ifndef CC_FORMAT_H
#define CC_FORMAT_H

#include "library.h"

// Where characters go: a stream, or else a text.
struct sink {
  FILE *stream;
  char *text;
  size_t room; // characters that the text takes, without the zero byte
  size_t count;
};

struct directive {
  int is_left, has_plus, has_space, is_alternate, has_zeros; // the flags
  int width;
  int precision; // -1 without one
  int size;      // bytes of an integer; of a `long double` 16
};

void cc_emit(struct sink *sink, const char *bytes, size_t size);
void cc_pad(struct sink *sink, char c, long count);

// A number's parts, padded to the width: sign or prefix, zeros that are left out, digits, zeros behind them, a rest.
struct number {
  const char *sign;
  long zeros;
  const char *digits;
  size_t length;
  long zeros_behind;
  const char *tail;
  size_t tail_length;
};
void cc_put_number(struct sink *sink, const struct directive *directive, const struct number *number);

// `%e`, `%f`, `%g`: a `double` by its bits.
void cc_put_double(struct sink *sink, const struct directive *directive, char kind, unsigned long bits);

#endif
