// The functions of the `printf` family. msan's own `printf` stays where its directives suffice; `msan-cc` sends other calls to `cc_printf`.
#define _GNU_SOURCE
#include "library.h"

#include <errno.h>
#include <limits.h>
#include <stdlib.h>

#define with_list(call)   \
  va_list list;           \
  va_start(list, format); \
  int count = call;       \
  va_end(list);           \
  return count

// ---- to a stream

int cc_printf(const char *format, ...) { with_list(cc_format_to_stream(stdout, format, list)); }
weak int fprintf(FILE *restrict stream, const char *restrict format, ...) { with_list(cc_format_to_stream(stream, format, list)); }
weak int vprintf(const char *restrict format, va_list list) { return cc_format_to_stream(stdout, format, list); }
weak int vfprintf(FILE *restrict stream, const char *restrict format, va_list list) { return cc_format_to_stream(stream, format, list); }

// Descriptors are those of the three streams.
static int to_descriptor(int descriptor, const char *format, va_list list) {
  if (descriptor == 1 || descriptor == 2)
    return cc_format_to_stream(descriptor == 1 ? stdout : stderr, format, list);
  errno = EBADF;
  return -1;
}
weak int vdprintf(int descriptor, const char *restrict format, va_list list) { return to_descriptor(descriptor, format, list); }
weak int dprintf(int descriptor, const char *restrict format, ...) { with_list(to_descriptor(descriptor, format, list)); }

// ---- to a text

weak int sprintf(char *restrict text, const char *restrict format, ...) { with_list(cc_format_to_text(text, INT_MAX, format, list)); }
weak int snprintf(char *restrict text, size_t room, const char *restrict format, ...) {
  with_list(cc_format_to_text(text, room, format, list));
}
weak int vsprintf(char *restrict text, const char *restrict format, va_list list) { return cc_format_to_text(text, INT_MAX, format, list); }
weak int vsnprintf(char *restrict text, size_t room, const char *restrict format, va_list list) {
  return cc_format_to_text(text, room, format, list);
}

// The text is formatted twice, first without room, for its length.
static int to_new_text(char **to, const char *format, va_list list) {
  int length = cc_format_to_text(NULL, 0, format, list);
  char *text = malloc(length + 1);
  if (!text)
    return -1;
  *to = text;
  return cc_format_to_text(text, length + 1, format, list);
}
weak int vasprintf(char **restrict to, const char *restrict format, va_list list) { return to_new_text(to, format, list); }
weak int asprintf(char **restrict to, const char *restrict format, ...) { with_list(to_new_text(to, format, list)); }
