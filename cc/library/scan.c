// The directives of `scanf`: words, characters, sets. Numbers are in scan_numbers.c, the functions themselves in scanf.c. Characters are
// read one by one, as from a stream that can give back one; so of a text no byte is read beyond what decides.
#include "scan.h"

#include <limits.h>
#include <stdlib.h>

int cc_next(struct source *source) {
  int c = source->stream ? cc_get(source->stream) : *source->text ? (unsigned char)*source->text++ : EOF;
  if (c != EOF)
    source->count++;
  return c;
}

void cc_back(struct source *source, int c) {
  if (c == EOF)
    return;
  source->count--;
  if (source->stream)
    ungetc(c, source->stream);
  else
    source->text--;
}

static int is_space(int c) { return c == ' ' || (c >= '\t' && c <= '\r'); }

int cc_skip_space(struct source *source) {
  int c = cc_next(source);
  while (is_space(c))
    c = cc_next(source);
  return c;
}

// ---- a directive

static const char *read_size(const char *format, struct directive *d) {
  int is_twice = format[0] && format[1] == format[0];
  switch (*format) {
  case 'h': d->size = is_twice ? sizeof(char) : sizeof(short); return format + 1 + is_twice;
  case 'l': d->size = sizeof(long); return format + 1 + is_twice;
  case 'j':
  case 'z':
  case 't':
  case 'q': d->size = sizeof(long); return format + 1;
  case 'L': d->size = sizeof(long double); return format + 1;
  default: d->size = sizeof(int); return format;
  }
}

// A set begins after `[` or `[^`; a `]` that is its first character belongs to it.
static const char *read_set(const char *format, struct directive *d) {
  d->set = format;
  format += *format == '^';
  format += *format == ']';
  while (*format && *format != ']')
    format++;
  d->set_end = format;
  return *format ? format + 1 : format;
}

static const char *read_directive(const char *format, struct directive *d) {
  *d = (struct directive){0};
  if (*format == '*') {
    d->is_dropped = 1;
    format++;
  }
  for (; *format >= '0' && *format <= '9'; format++)
    d->width = d->width * 10 + (*format - '0');
  if (*format == 'm') {
    d->is_allocated = 1;
    format++;
  }
  format = read_size(format, d);
  d->kind = *format;
  if (*format)
    format++;
  return d->kind == '[' ? read_set(format, d) : format;
}

// ---- characters, words, sets

static int is_in_set(const struct directive *d, int c) {
  const char *at = d->set;
  int is_excluded = *at == '^';
  at += is_excluded;
  for (const char *first = at; at < d->set_end; at++)
    if (*at == '-' && at > first && at + 1 < d->set_end) {
      if (c >= (unsigned char)at[-1] && c <= (unsigned char)at[1])
        return !is_excluded;
    } else if ((unsigned char)*at == c) {
      return !is_excluded;
    }
  return is_excluded;
}

static int is_wanted(const struct directive *d, int c) { return d->kind == 'c' || (d->kind == 's' ? !is_space(c) : is_in_set(d, c)); }

// Where characters are stored: the program's text, one that is made for `%ms`, or nowhere.
struct store {
  char *text;
  char **made;
  size_t length, room;
};

static void store_char(struct store *store, char c) {
  if (store->made && store->length == store->room) {
    store->room = store->room ? 2 * store->room : 32;
    store->text = realloc(store->text, store->room);
  }
  if (store->text)
    store->text[store->length] = c;
  store->length++;
}

static enum result scan_text(struct source *source, const struct directive *d, va_list *arguments) {
  long most = d->width ? d->width : d->kind == 'c' ? 1 : LONG_MAX;
  int c = d->kind == 's' ? cc_skip_space(source) : cc_next(source);
  if (c == EOF)
    return ENDED;
  struct store store = {0};
  if (!d->is_dropped && d->is_allocated)
    store.made = va_arg(*arguments, char **);
  else if (!d->is_dropped)
    store.text = va_arg(*arguments, char *);
  while (c != EOF && is_wanted(d, c)) {
    store_char(&store, (char)c);
    c = --most > 0 ? cc_next(source) : EOF;
  }
  cc_back(source, c);
  if (store.length == 0)
    return FAILED;
  if (d->kind != 'c')
    store_char(&store, '\0');
  if (store.made)
    *store.made = store.text;
  return d->is_dropped ? DROPPED : STORED;
}

// ---- a whole format

static enum result scan_directive(struct source *source, const struct directive *d, va_list *arguments) {
  struct directive pointer;
  int c;
  switch (d->kind) {
  case 'd':
  case 'i':
  case 'u':
  case 'o':
  case 'x':
  case 'X': return cc_scan_integer(source, d, arguments);
  case 'p':
    pointer = *d;
    pointer.size = sizeof(void *);
    return cc_scan_integer(source, &pointer, arguments);
  case 'e':
  case 'E':
  case 'f':
  case 'F':
  case 'g':
  case 'G': return cc_scan_float(source, d, arguments);
  case 'c':
  case 's':
  case '[':
    if (d->size == sizeof(long))
      cc_missing("scanf", d->kind);
    return scan_text(source, d, arguments);
  case 'n':
    if (!d->is_dropped)
      cc_store_number(d, va_arg(*arguments, void *), source->count);
    return DROPPED;
  case '%':
    c = cc_skip_space(source);
    if (c == '%')
      return DROPPED;
    cc_back(source, c);
    return c == EOF ? ENDED : FAILED;
  default: cc_missing("scanf", d->kind);
  }
}

// A character of the format that is neither space nor directive.
static enum result scan_char(struct source *source, char wanted) {
  int c = cc_next(source);
  if (c == (unsigned char)wanted)
    return DROPPED;
  cc_back(source, c);
  return c == EOF ? ENDED : FAILED;
}

static int scan(struct source *source, const char *format, va_list list) {
  va_list arguments;
  va_copy(arguments, list);
  int stored = 0;
  while (*format) {
    enum result result = DROPPED;
    if (is_space((unsigned char)*format)) {
      cc_back(source, cc_skip_space(source));
      format++;
    } else if (*format == '%') {
      struct directive directive;
      format = read_directive(format + 1, &directive);
      result = scan_directive(source, &directive, &arguments);
    } else {
      result = scan_char(source, *format++);
    }
    stored += result == STORED;
    if (result == ENDED && stored == 0)
      stored = EOF;
    if (result == FAILED || result == ENDED)
      break;
  }
  va_end(arguments);
  return stored;
}

int cc_scan_stream(FILE *stream, const char *format, va_list arguments) {
  return scan(&(struct source){.stream = stream}, format, arguments);
}
int cc_scan_text(const char *text, const char *format, va_list arguments) {
  return scan(&(struct source){.text = text}, format, arguments);
}
