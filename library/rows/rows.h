// What the rows share. A row is a function without parameters, which `-DROW=clean_strcpy` makes the program.
//
// - CLEAN(f): a use of f without mistakes. What it prints, by the C standard or the function's manual page, stands in its comments,
//   a line after each `prints`; after `ends`, how it ends, if not by returning.
// - POISONED(f): one that hands over uninitialised bytes. After `reports` stand the use and the function in which it is reported, the
//   functions that stored the bytes, the last first, and where they come from.
#define _GNU_SOURCE
#include <assert.h>
#include <ctype.h>
#include <errno.h>
#include <limits.h>
#include <stdio.h>
#include <stdlib.h>
#include <string.h>
#include <strings.h>

#define CLEAN(function) static void clean_##function(void)
#define POISONED(function) static void poisoned_##function(void)
