// The directives of `printf`: integers, characters, texts, pointers. Floating point is in float.c, the functions themselves are in
// printf.c.
//
// A number's digits hang on all its bits, so these are checked before the first division.
// Bytes of texts are checked up to what is printed, and copied to a text with what is unset in them.
#include "format.h"

#include <stdint.h>
#include <string.h>

// ---- where characters go

void cc_emit(struct sink *sink, const char *bytes, size_t size) {
  if (size == 0)
    return;
  if (sink->stream) {
    cc_put(bytes, size, sink->stream);
  } else if (sink->count < sink->room) {
    size_t rest = sink->room - sink->count;
    memcpy(sink->text + sink->count, bytes, size < rest ? size : rest);
  }
  sink->count += size;
}

void cc_pad(struct sink *sink, char c, long count) {
  static const char blanks[] = "                                ", zeros[] = "00000000000000000000000000000000";
  const long most = sizeof blanks - 1;
  for (; count > 0; count -= most)
    cc_emit(sink, c == '0' ? zeros : blanks, count < most ? count : most);
}

static void put_padded(struct sink *sink, const struct directive *d, const char *text, size_t length) {
  long blanks = d->width - (long)length;
  if (blanks > 0 && !d->is_left)
    cc_pad(sink, ' ', blanks);
  cc_emit(sink, text, length);
  if (blanks > 0 && d->is_left)
    cc_pad(sink, ' ', blanks);
}

void cc_put_number(struct sink *sink, const struct directive *d, const struct number *number) {
  size_t signs = strlen(number->sign);
  long blanks = d->width - (long)(signs + number->length + number->tail_length) - number->zeros - number->zeros_behind;
  if (!d->is_left)
    cc_pad(sink, ' ', blanks);
  cc_emit(sink, number->sign, signs);
  cc_pad(sink, '0', number->zeros);
  cc_emit(sink, number->digits, number->length);
  cc_pad(sink, '0', number->zeros_behind);
  cc_emit(sink, number->tail, number->tail_length);
  if (d->is_left)
    cc_pad(sink, ' ', blanks);
}

// ---- reading a directive

static const char *read_flags(const char *format, struct directive *d) {
  for (;; format++)
    switch (*format) {
    case '-': d->is_left = 1; break;
    case '+': d->has_plus = 1; break;
    case ' ': d->has_space = 1; break;
    case '#': d->is_alternate = 1; break;
    case '0': d->has_zeros = 1; break;
    case '\'': break; // groups of digits: none in the C locale
    default: return format;
    }
}

static const char *read_number(const char *format, int *number, va_list *arguments) {
  if (*format == '*') {
    *number = va_arg(*arguments, int);
    return format + 1;
  }
  for (*number = 0; *format >= '0' && *format <= '9'; format++)
    *number = *number * 10 + (*format - '0');
  return format;
}

static const char *read_size(const char *format, struct directive *d) {
  switch (*format) {
  case 'h': d->size = format[1] == 'h' ? sizeof(char) : sizeof(short); return format + (format[1] == 'h' ? 2 : 1);
  case 'l': d->size = sizeof(long); return format + (format[1] == 'l' ? 2 : 1);
  case 'j':
  case 'z':
  case 't':
  case 'q': d->size = sizeof(long); return format + 1;
  case 'L': d->size = sizeof(long double); return format + 1;
  default: return format;
  }
}

static int is_letter(char c) { return (unsigned char)(c | 32) >= 'a'; }

// Reads up to the letter that says what to print.
static const char *read_directive(const char *format, struct directive *d, va_list *arguments) {
  *d = (struct directive){.precision = -1, .size = sizeof(int)};
  if (is_letter(*format))
    return read_size(format, d);
  format = read_flags(format, d);
  format = read_number(format, &d->width, arguments);
  if (d->width < 0) {
    d->is_left = 1;
    d->width = -d->width;
  }
  if (*format == '.')
    format = read_number(format + 1, &d->precision, arguments);
  return is_letter(*format) ? read_size(format, d) : format;
}

// ---- integers

// A sum's upper bit is unset where any bit of it is: so this branch checks them all.
void cc_check_argument(unsigned long word) {
  if ((long)(word + 1) < 0)
    return;
}

static unsigned long signed_argument(const struct directive *d, va_list *arguments) {
  if (d->size >= (int)sizeof(long))
    return va_arg(*arguments, long);
  int number = va_arg(*arguments, int);
  return d->size == sizeof(int) ? number : d->size == sizeof(short) ? (short)number : (signed char)number;
}

static unsigned long unsigned_argument(const struct directive *d, va_list *arguments) {
  if (d->size >= (int)sizeof(long))
    return va_arg(*arguments, unsigned long);
  unsigned number = va_arg(*arguments, unsigned);
  return d->size == sizeof(int) ? number : d->size == sizeof(short) ? (unsigned short)number : (unsigned char)number;
}

// Writes digits backwards from an end; returns the first. None for 0.
static char *write_decimal(unsigned long number, char *end) {
  for (; number; number /= 10)
    *--end = '0' + number % 10;
  return end;
}

static char *write_bits(unsigned long number, unsigned width, const char *letters, char *end) {
  for (; number; number >>= width)
    *--end = letters[number & ((1u << width) - 1)];
  return end;
}

static char *write_digits(unsigned long number, char kind, char *end) {
  switch (kind) {
  case 'o': return write_bits(number, 3, "01234567", end);
  case 'x': return write_bits(number, 4, "0123456789abcdef", end);
  case 'X': return write_bits(number, 4, "0123456789ABCDEF", end);
  default: return write_decimal(number, end);
  }
}

// Zeros in front of so many digits.
static long zeros_before(const struct directive *d, long length, size_t signs, char kind) {
  long least = d->precision; // digits
  if (least < 0) {
    least = d->has_zeros && !d->is_left ? d->width - (long)signs : 1;
    if (least < 1)
      least = 1;
  }
  if (least > length)
    return least - length;
  return kind == 'o' && d->is_alternate;
}

// What is short, mostly, is put together first.
static void put_integer(struct sink *sink, const struct directive *d, unsigned long magnitude, char kind, const char *sign) {
  enum { ROOM = 64 };
  char text[ROOM], *end = text + ROOM, *start = write_digits(magnitude, kind, end);
  size_t signs = *sign ? strlen(sign) : 0;
  long zeros = zeros_before(d, end - start, signs, kind), blanks = d->width - (end - start) - zeros - (long)signs;
  if (zeros > ROOM / 2 - 2 || blanks > ROOM / 2 - 22) {
    struct number number = {.sign = sign, .zeros = zeros, .digits = start, .length = end - start};
    return cc_put_number(sink, d, &number);
  }
  if (zeros)
    memset(start -= zeros, '0', zeros);
  if (signs)
    memcpy(start -= signs, sign, signs);
  if (blanks > 0 && !d->is_left)
    memset(start -= blanks, ' ', blanks);
  cc_emit(sink, start, end - start);
  if (blanks > 0 && d->is_left)
    cc_pad(sink, ' ', blanks);
}

static void put_signed(struct sink *sink, const struct directive *d, unsigned long number) {
  cc_check_argument(number);
  int is_negative = (long)number < 0;
  put_integer(sink, d, is_negative ? -number : number, 'd', is_negative ? "-" : d->has_plus ? "+" : d->has_space ? " " : "");
}

static void put_unsigned(struct sink *sink, const struct directive *d, unsigned long number, char kind) {
  cc_check_argument(number);
  int has_prefix = d->is_alternate && number && (kind == 'x' || kind == 'X');
  put_integer(sink, d, number, kind, !has_prefix ? "" : kind == 'x' ? "0x" : "0X");
}

static void put_pointer(struct sink *sink, const struct directive *d, unsigned long address) {
  cc_check_argument(address);
  if (address)
    put_integer(sink, d, address, 'x', "0x");
  else
    put_padded(sink, d, "(nil)", 5);
}

// ---- texts and the rest

static void put_text(struct sink *sink, const struct directive *d, const char *text) {
  if (!text)
    text = d->precision < 0 || d->precision >= 6 ? "(null)" : "";
  size_t length = 0;
  if (d->precision < 0)
    length = strlen(text);
  else
    while (length < (size_t)d->precision && text[length])
      length++;
  put_padded(sink, d, text, length);
}

static void store_count(const struct directive *d, const struct sink *sink, void *to) {
  if (d->size >= (int)sizeof(long))
    *(long *)to = sink->count;
  else if (d->size == sizeof(int))
    *(int *)to = sink->count;
  else if (d->size == sizeof(short))
    *(short *)to = sink->count;
  else
    *(signed char *)to = sink->count;
}

static void put_directive(struct sink *sink, const struct directive *d, char kind, va_list *arguments) {
  char c;
  switch (kind) {
  case 'd':
  case 'i': return put_signed(sink, d, signed_argument(d, arguments));
  case 'u':
  case 'o':
  case 'x':
  case 'X': return put_unsigned(sink, d, unsigned_argument(d, arguments), kind);
  case 'p': return put_pointer(sink, d, (uintptr_t)va_arg(*arguments, void *));
  case 'c':
    if (d->size == sizeof(long))
      cc_missing("printf", kind);
    c = (char)va_arg(*arguments, int);
    return put_padded(sink, d, &c, 1);
  case 's':
    if (d->size == sizeof(long))
      cc_missing("printf", kind);
    return put_text(sink, d, va_arg(*arguments, const char *));
  case 'n': return store_count(d, sink, va_arg(*arguments, void *));
  case '%': return cc_emit(sink, "%", 1);
  case 'e':
  case 'E':
  case 'f':
  case 'F':
  case 'g':
  case 'G':
    if (d->size == sizeof(long double))
      cc_missing("printf", kind);
    return cc_put_double(sink, d, kind, va_arg(*arguments, unsigned long)); // its word
  default: cc_missing("printf", kind);
  }
}

static void format_to(struct sink *sink, const char *format, va_list *arguments) {
  while (*format) {
    const char *end = format;
    while (*end && *end != '%')
      end++;
    cc_emit(sink, format, end - format);
    if (!*end)
      return;
    struct directive directive;
    format = read_directive(end + 1, &directive, arguments);
    put_directive(sink, &directive, *format, arguments);
    format++;
  }
}

int cc_format_to_stream(FILE *stream, const char *format, va_list list) {
  struct sink sink = {.stream = stream};
  va_list arguments; // `list` may be an array that became a pointer
  va_copy(arguments, list);
  format_to(&sink, format, &arguments);
  va_end(arguments);
  return (int)sink.count;
}

int cc_format_to_text(char *text, size_t room, const char *format, va_list list) {
  struct sink sink = {.text = text, .room = room ? room - 1 : 0};
  va_list arguments;
  va_copy(arguments, list);
  format_to(&sink, format, &arguments);
  va_end(arguments);
  if (room)
    text[sink.count < room ? sink.count : room - 1] = '\0';
  return (int)sink.count;
}
