// Reading from a stream: standard input, msan's `--input`, through a buffer of its own. `getchar` and `read` by themselves are msan's; in a
// program that uses `stdin`, `msan-cc` sends `getchar` to `cc_getchar`.
#define _GNU_SOURCE
#include "library.h"
#include "memory_stream.h"

#include <errno.h>
#include <stdlib.h>
#include <string.h>
#include <unistd.h>

enum { BACK = 8, ROOM = 4096 }; // characters that `ungetc` may give back in front of those read; as many as glibc reads at once
static char buffer[BACK + ROOM];
static FILE input = {._IO_read_base = buffer, ._IO_read_ptr = buffer + BACK, ._IO_read_end = buffer + BACK};

weak FILE *stdin = &input;

// Reads more into an empty buffer. Returns whether there was more.
static int fill(FILE *stream) {
  if (stream->_IO_read_ptr < stream->_IO_read_end)
    return 1;
  if (stream->_fileno > 0) {
    stream->_flags |= _IO_ERR_SEEN;
    errno = EBADF;
    return 0;
  }
  ssize_t size = stream == stdin ? read(0, buffer + BACK, ROOM) : 0;
  if (size <= 0) {
    stream->_flags |= _IO_EOF_SEEN;
    return 0;
  }
  stream->_IO_read_ptr = buffer + BACK;
  stream->_IO_read_end = buffer + BACK + size;
  return 1;
}

// How many characters stand in the buffer, up to a number, and up to a last one, if there is one; 0 at the end.
static size_t ready(FILE *stream, size_t most, const int *last) {
  if (!fill(stream))
    return 0;
  const char *from = stream->_IO_read_ptr;
  size_t size = stream->_IO_read_end - from;
  if (size > most)
    size = most;
  if (!last)
    return size;
  const char wanted = (char)*last, *end = from + size;
  for (const char *at = from; at < end; at++)
    if (*at == wanted)
      return at + 1 - from;
  return size;
}

static void take(FILE *stream, char *to, size_t size) {
  memcpy(to, stream->_IO_read_ptr, size);
  stream->_IO_read_ptr += size;
}

// ---- characters

int cc_get(FILE *stream) {
  if (stream->_IO_read_ptr == stream->_IO_read_end && !fill(stream))
    return EOF;
  return (unsigned char)*stream->_IO_read_ptr++;
}
int cc_getchar(void) { return cc_get(stdin); }
weak int fgetc(FILE *stream) { return cc_get(stream); }
also(getc, fgetc);
also(_IO_getc, fgetc);
also(fgetc_unlocked, fgetc);
also(getc_unlocked, fgetc);
also(__uflow, fgetc);
weak int getchar_unlocked(void) { return cc_get(stdin); }

weak int ungetc(int c, FILE *stream) {
  if (c == EOF || stream->_IO_read_ptr == stream->_IO_read_base)
    return EOF;
  stream->_flags &= ~_IO_EOF_SEEN;
  *--stream->_IO_read_ptr = (char)c;
  return (unsigned char)c;
}

// ---- lines and blocks

weak char *fgets(char *restrict text, int room, FILE *restrict stream) {
  const int last = '\n';
  if (room <= 0)
    return NULL;
  size_t length = 0, most = room - 1, size;
  while (length < most && (size = ready(stream, most - length, &last)) > 0) {
    take(stream, text + length, size);
    length += size;
    if (text[length - 1] == last)
      break;
  }
  if (length == 0 && most > 0)
    return NULL;
  text[length] = '\0';
  return text;
}
also(fgets_unlocked, fgets);

weak char *gets(char *text) {
  size_t length = 0;
  int c;
  while ((c = cc_get(stdin)) != EOF && c != '\n')
    text[length++] = (char)c;
  if (c == EOF && length == 0)
    return NULL;
  text[length] = '\0';
  return text;
}

// As glibc's: the first room is 120, then it is doubled.
static int make_room(char **line, size_t *room, size_t needed) {
  if (*line && needed <= *room)
    return 1;
  size_t larger = !*line || *room == 0 ? 120 : 2 * *room;
  if (larger < needed)
    larger = needed;
  char *moved = realloc(*line, larger);
  if (!moved)
    return 0;
  *line = moved;
  *room = larger;
  return 1;
}

static ssize_t get_line(char **line, size_t *room, int last, FILE *stream) {
  size_t length = 0, size;
  if (!line || !room) {
    errno = EINVAL;
    return -1;
  }
  if (!*line)
    *room = 0;
  if (!make_room(line, room, 1))
    return -1;
  while ((size = ready(stream, -1, &last)) > 0) {
    if (!make_room(line, room, length + size + 1))
      return -1;
    take(stream, *line + length, size);
    length += size;
    if ((*line)[length - 1] == (char)last)
      break;
  }
  if (length == 0)
    return -1;
  (*line)[length] = '\0';
  return length;
}
weak ssize_t getdelim(char **restrict line, size_t *restrict room, int last, FILE *restrict stream) {
  return get_line(line, room, last, stream);
}
also(__getdelim, getdelim);
weak ssize_t getline(char **restrict line, size_t *restrict room, FILE *restrict stream) { return get_line(line, room, '\n', stream); }

weak size_t fread(void *restrict to, size_t size, size_t count, FILE *restrict stream) {
  size_t length = 0, most = size * count, taken;
  while (length < most && (taken = ready(stream, most - length, NULL)) > 0) {
    take(stream, (char *)to + length, taken);
    length += taken;
  }
  return size ? length / size : 0;
}
also(fread_unlocked, fread);

// ---- the state of a stream

weak int feof(FILE *stream) { return (stream->_flags & _IO_EOF_SEEN) != 0; }
also(feof_unlocked, feof);
weak int ferror(FILE *stream) { return (stream->_flags & _IO_ERR_SEEN) != 0; }
also(ferror_unlocked, ferror);
weak void clearerr(FILE *stream) { stream->_flags &= ~(_IO_EOF_SEEN | _IO_ERR_SEEN); }
also(clearerr_unlocked, clearerr);
