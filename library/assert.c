// <assert.h>: what a failed `assert` does. It prints what glibc does, but on standard output: msan has no other.
#include "library.h"

#include <assert.h>
#include <stdio.h>
#include <stdlib.h>

weak void __assert_fail(const char *condition, const char *file, unsigned line, const char *function) {
  printf("%s:%u: %s: Assertion `%s' failed.\n", file, line, function, condition);
  abort();
}
