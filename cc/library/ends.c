// How a program ends: the handlers of `atexit`, which run at the end of `main` and at `exit`. `msan-cc` calls the names with `cc_` where a
// program has handlers.
#define _GNU_SOURCE
#include "library.h"

#include <stdlib.h>
#include <unistd.h>

struct handler {
  void (*plain)(void);
  void (*with_status)(int status, void *argument);
  void *argument;
};

struct list {
  struct handler handlers[64];
  int count;
};

static int add(struct list *list, struct handler handler) {
  if (list->count == sizeof list->handlers / sizeof *list->handlers)
    return -1;
  list->handlers[list->count++] = handler;
  return 0;
}

// The last first; a handler may add more.
static void run(struct list *list, int status) {
  while (list->count > 0) {
    struct handler handler = list->handlers[--list->count];
    if (handler.plain)
      handler.plain();
    else
      handler.with_status(status, handler.argument);
  }
}

static struct list handlers, quick_handlers;

weak int atexit(void (*handler)(void)) { return add(&handlers, (struct handler){.plain = handler}); }
weak int on_exit(void (*handler)(int, void *), void *argument) {
  return add(&handlers, (struct handler){.with_status = handler, .argument = argument});
}
weak int at_quick_exit(void (*handler)(void)) { return add(&quick_handlers, (struct handler){.plain = handler}); }

// The end of `main` in a program that has handlers, and its `exit`.
void cc_finish(void) { run(&handlers, 0); }
void cc_exit(int status) {
  run(&handlers, status);
  exit(status);
}

// `msan-cc` makes `exit` `cc_exit` here too, so there are no handlers any more.
weak void _exit(int status) {
  handlers.count = 0;
  exit(status);
}
also(_Exit, _exit);

weak void quick_exit(int status) {
  run(&quick_handlers, status);
  handlers.count = 0;
  exit(status);
}
