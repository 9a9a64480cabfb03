// Writing to a stream. Nothing is buffered: what is written to standard output is msan's output at once, in the order of the calls. What is
// written to standard error is lost in msan, but checked.
#define _GNU_SOURCE
#include "library.h"
#include "memory_stream.h"

#include <errno.h>
#include <string.h>
#include <unistd.h>

static FILE output = {._fileno = 1}, errors = {._fileno = 2};

weak FILE *stdout = &output;
weak FILE *stderr = &errors;

size_t cc_put(const void *bytes, size_t size, FILE *stream) {
  if (size == 0)
    return 0;
  if (cc_is_memory(stream))
    return cc_put_memory(bytes, size, stream);
  if (stream->_fileno == 0) {
    stream->_flags |= _IO_ERR_SEEN;
    errno = EBADF;
    return 0;
  }
  ssize_t written = write(stream->_fileno, bytes, size);
  (void)written; // -1 for standard error
  return size;
}

// msan's `putchar` checks the character as a value.
weak int fputc(int c, FILE *stream) {
  if (stream == stdout)
    return putchar(c);
  char byte = (char)c;
  return cc_put(&byte, 1, stream) ? (unsigned char)c : EOF;
}
also(putc, fputc);
also(_IO_putc, fputc);
also(fputc_unlocked, fputc);
also(putc_unlocked, fputc);
weak int putchar_unlocked(int c) { return putchar(c); }
weak int __overflow(FILE *stream, int c) { return fputc(c, stream); }

weak int fputs(const char *restrict text, FILE *restrict stream) {
  size_t length = strlen(text);
  return cc_put(text, length, stream) == length ? 1 : EOF;
}
also(fputs_unlocked, fputs);

weak size_t fwrite(const void *restrict from, size_t size, size_t count, FILE *restrict stream) {
  return size && cc_put(from, size * count, stream) == size * count ? count : 0;
}
also(fwrite_unlocked, fwrite);

// There is nothing to flush but a text of `open_memstream`.
weak int fflush(FILE *stream) {
  if (stream && cc_is_memory(stream))
    cc_show_memory(stream);
  return 0;
}
also(fflush_unlocked, fflush);

weak int setvbuf(FILE *restrict stream, char *restrict buffer, int mode, size_t size) { return 0; }
weak void setbuf(FILE *restrict stream, char *restrict buffer) {}
weak void setbuffer(FILE *stream, char *buffer, size_t size) {}
weak void setlinebuf(FILE *stream) {}
