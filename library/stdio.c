// The functions of <stdio.h> that write to one of two streams, with streams of their own. What goes to standard error is lost in msan;
// printf, puts, putchar and getchar are msan's.
#include "library.h"

#include <stdio.h>

static FILE output, errors;

weak FILE *stdout = &output;
weak FILE *stderr = &errors;

static int put(int c, FILE *stream) { return stream == stdout ? putchar(c) : (unsigned char)c; }

weak int fputc(int c, FILE *stream) { return put(c, stream); }
weak int putc(int c, FILE *stream) { return put(c, stream); }

weak int fputs(const char *restrict text, FILE *restrict stream) {
  for (; *text; text++)
    put(*text, stream);
  return 0;
}
