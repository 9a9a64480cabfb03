// A string builder: grows by realloc, formats with vsnprintf, joins and repeats.
#include <stdarg.h>
#include <stdio.h>
#include <stdlib.h>
#include <string.h>

struct builder {
  char *text;
  size_t length, room;
};

static void reserve(struct builder *b, size_t more) {
  if (b->length + more + 1 > b->room) {
    b->room = (b->length + more + 1) * 2;
    b->text = realloc(b->text, b->room); // P1 root
  }
}
static void append(struct builder *b, const char *text) {
  size_t n = strlen(text);
  reserve(b, n);
#ifdef P1
  memcpy(b->text + b->length, text, n);
#else
  memcpy(b->text + b->length, text, n + 1);
#endif
  b->length += n;
}
static void append_format(struct builder *b, const char *format, ...) {
  va_list list, again;
  va_start(list, format);
  va_copy(again, list);
  int n = vsnprintf(NULL, 0, format, list);
  va_end(list);
  reserve(b, (size_t)n);
  vsnprintf(b->text + b->length, (size_t)n + 1, format, again);
  va_end(again);
  b->length += (size_t)n;
}
static void join(struct builder *b, const char *between, int count, ...) {
  va_list list;
  va_start(list, count);
  for (int k = 0; k < count; k++) {
    if (k)
      append(b, between);
    append(b, va_arg(list, const char *));
  }
  va_end(list);
}

int main(void) {
  struct builder b = {0};
  append(&b, "items: ");
  join(&b, ", ", 4, "one", "two", "three", "four");
  for (int k = 0; k < 3; k++)
    append_format(&b, "; [%d|%5s|%-4x]", k, "ab", 255 << k);
  append(&b, ".");
  puts(b.text); // P1: string "puts"
  printf("%zu of %zu\n", b.length, b.room);
  free(b.text);
  return 0;
}
