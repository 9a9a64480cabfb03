// Constructors and destructors by priority, handlers of atexit from the last, and exit from within a function.
#include <stdio.h>
#include <stdlib.h>

static int *flag;
static void bye(void) { puts("bye"); }
static void last(void) {
  puts("last");
  if (*flag) // P1: branch "*flag"
    puts("flag");
}
__attribute__((constructor)) static void first(void) { puts("constructor"); }
__attribute__((constructor(102))) static void earlier(void) { puts("constructor 102"); }
__attribute__((constructor(101))) static void earliest(void) { puts("constructor 101"); }
__attribute__((destructor)) static void end(void) { puts("destructor"); }
__attribute__((destructor(101))) static void very_end(void) { puts("destructor 101"); }

static void leave(int status) {
  puts("leaving");
  exit(status);
}

int main(void) {
  flag = malloc(sizeof *flag); // P1 root
#ifndef P1
  *flag = 0;
#endif
  atexit(last);
  atexit(bye);
  leave(5);
  return 0;
}
