// The functions of the `scanf` family. glibc's headers call them by other names, by release and by the standard asked for.
#include "library.h"

#define with_list(call)   \
  va_list list;           \
  va_start(list, format); \
  int count = call;       \
  va_end(list);           \
  return count

#define names(name)                                                                                                 \
  extern __typeof__(cc_##name) plain_##name __asm__(#name) __attribute__((__weak__, alias("cc_" #name)));           \
  extern __typeof__(cc_##name) c99_##name __asm__("__isoc99_" #name) __attribute__((__weak__, alias("cc_" #name))); \
  extern __typeof__(cc_##name) c23_##name __asm__("__isoc23_" #name) __attribute__((__weak__, alias("cc_" #name)))

int cc_sscanf(const char *text, const char *format, ...) { with_list(cc_scan_text(text, format, list)); }
names(sscanf);
int cc_vsscanf(const char *text, const char *format, va_list list) { return cc_scan_text(text, format, list); }
names(vsscanf);

int cc_scanf(const char *format, ...) { with_list(cc_scan_stream(stdin, format, list)); }
names(scanf);
int cc_vscanf(const char *format, va_list list) { return cc_scan_stream(stdin, format, list); }
names(vscanf);

int cc_fscanf(FILE *stream, const char *format, ...) { with_list(cc_scan_stream(stream, format, list)); }
names(fscanf);
int cc_vfscanf(FILE *stream, const char *format, va_list list) { return cc_scan_stream(stream, format, list); }
names(vfscanf);
