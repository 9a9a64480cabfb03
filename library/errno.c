// <errno.h>: `errno`.
#include "library.h"

#include <errno.h>

weak int *__errno_location(void) {
  static int error;
  return &error;
}
