// <err.h> and <error.h>: messages on standard error, which is lost in msan, but what they print is checked.
#define _GNU_SOURCE
#include "library.h"

#include <errno.h>
#include <error.h>
#include <err.h>
#include <stdlib.h>
#include <string.h>

weak unsigned error_message_count;
weak int error_one_per_line;
weak char *program_invocation_name = "program", *program_invocation_short_name = "program", *__progname = "program";

static void say(int has_error, int error, const char *format, va_list list) {
  fputs("program: ", stderr);
  if (format)
    cc_format_to_stream(stderr, format, list);
  if (has_error)
    fprintf(stderr, "%s%s", format ? ": " : "", strerror(error));
  fputc('\n', stderr);
}

#define say_list(has_error, error)     \
  va_list list;                        \
  va_start(list, format);              \
  say(has_error, error, format, list); \
  va_end(list)

weak void vwarn(const char *format, va_list list) { say(1, errno, format, list); }
weak void vwarnx(const char *format, va_list list) { say(0, 0, format, list); }
weak void warn(const char *format, ...) { say_list(1, errno); }
weak void warnx(const char *format, ...) { say_list(0, 0); }

weak void verr(int status, const char *format, va_list list) {
  say(1, errno, format, list);
  exit(status);
}
weak void verrx(int status, const char *format, va_list list) {
  say(0, 0, format, list);
  exit(status);
}
weak void err(int status, const char *format, ...) {
  say_list(1, errno);
  exit(status);
}
weak void errx(int status, const char *format, ...) {
  say_list(0, 0);
  exit(status);
}

weak void error(int status, int number, const char *format, ...) {
  say_list(number != 0, number);
  error_message_count++;
  if (status)
    exit(status);
}
