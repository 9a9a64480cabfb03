// What the files of the library share. It is C, checked as the program is: a use of unset bytes is reported where C says that a function
// reads them, and what is only copied keeps what is unset in it. A function of the program wins over one of the library; so functions call
// each other by names of ISO C, which no program may use for its own, by msan's (`read`, `write`, `sched_yield`), or by names that begin
// with `cc_`.
//
// printf.c scanf.c           the families' functions; format.c float.c scan.c scan_numbers.c what their directives do
// input.c output.c           the three streams; memory_stream.c those over memory; files.c: there are no files
// ends.c errors.c warn.c     atexit and exit; texts of errors and signals; err, warn, error
// world.c signals.c          environment, processes, a clock that stands still; signals
// calendar.c                 gmtime, mktime, strftime, in UTC
// threads.c locks.c c11_threads.c   who runs, values of threads; mutexes, conditions, semaphores, barriers, by yielding
// strtod.c limbs.c           a `double` of a text
// sort.c numbers.c memory.c strings.c wide.c options.c   the rest, beside library/, whose functions are linked too
#ifndef CC_LIBRARY_H
#define CC_LIBRARY_H

#include <stdarg.h>
#include <stddef.h>
#include <stdio.h>
#include <string.h>

// Most functions of a world without files, signals and clocks have no use for what they are given.
#pragma clang diagnostic ignored "-Wunused-parameter"

// Before a function: one of the same name in the program wins, when `llvm-link` joins the two.
#define weak __attribute__((__weak__))

// One more name for a function of the same file.
#define also(name, function) extern __typeof__(function) name __attribute__((__weak__, alias(#function)))

// Branches on each bit of a word, so that it is reported where one is unset: for what is divided then, whose result msan doesn't follow
// bit by bit.
void cc_check_argument(unsigned long word);

// Reads a text up to its end, of a function that has no other use for it.
static inline void cc_check_text(const char *text) { (void)strlen(text); }

// Writes bytes to a stream. Returns how many; fewer than given only for one that can't be written.
size_t cc_put(const void *bytes, size_t size, FILE *stream);

// The next character of a stream, or EOF.
int cc_get(FILE *stream);

// Ends the run by a trap, and says on standard output what of the library is missing.
void cc_missing(const char *function, char directive) __attribute__((noreturn));

// The `printf` family: writes what a format asks for to a stream, or to a text with room for a zero byte and some characters before it.
int cc_format_to_stream(FILE *stream, const char *format, va_list arguments);
int cc_format_to_text(char *text, size_t room, const char *format, va_list arguments);

// The `scanf` family. Returns how many conversions were stored, or EOF.
int cc_scan_stream(FILE *stream, const char *format, va_list arguments);
int cc_scan_text(const char *text, const char *format, va_list arguments);

#endif
