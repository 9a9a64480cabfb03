// A logger with levels, a format of its own and a sink that can be exchanged.
#include <stdarg.h>
#include <stdio.h>
#include <string.h>

enum level { DEBUG, INFO, WARN, ERROR };
typedef void (*sink_fn)(enum level, const char *, void *);
struct logger {
  enum level least;
  sink_fn sink;
  void *data;
  int dropped;
};
static const char *const names[] = {"debug", "info", "warn", "error"};

static void to_stdout(enum level level, const char *text, void *data) {
  ++*(int *)data;
  printf("[%-5s] %s\n", names[level], text);
}
static void to_buffer(enum level level, const char *text, void *data) {
  char *buffer = data;
  size_t used = strlen(buffer);
  snprintf(buffer + used, 60 - used, "%c:%s;", names[level][0], text);
}
static void logv(struct logger *l, enum level level, const char *format, va_list list) {
  char text[80];
  if (level < l->least) { // P1: branch "level"
    l->dropped++;
    return;
  }
  vsnprintf(text, sizeof text, format, list);
  l->sink(level, text, l->data);
}
static void logf_(struct logger *l, enum level level, const char *format, ...) {
  va_list list;
  va_start(list, format);
  logv(l, level, format, list);
  va_end(list);
}
#define LOG(level, ...) logf_(&logger, level, __VA_ARGS__)

int main(void) {
  int lines = 0;
  char buffer[60] = "";
#ifdef P1
  struct logger logger; // P1 root
  logger.sink = to_stdout;
  logger.data = &lines;
  logger.dropped = 0;
#else
  struct logger logger = {INFO, to_stdout, &lines, 0};
#endif
  LOG(DEBUG, "not shown %d", 1);
  LOG(INFO, "%s started with %d workers", "server", 4);
  LOG(WARN, "%5.1s|%05d|%lx", "high", 42, 0xfeedL);
  logger.sink = to_buffer;
  logger.data = buffer;
  LOG(ERROR, "code %d", -3);
  LOG(ERROR, "again");
  printf("%d lines, %d dropped, buffer <%s>\n", lines, logger.dropped, buffer);
  return 0;
}
