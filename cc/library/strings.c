// More of <string.h>, <strings.h>, <ctype.h>, <inttypes.h> and <libgen.h>, beside what library/ has. They go byte by byte, and stop at the
// first byte that decides.
#define _GNU_SOURCE
#define __NO_CTYPE // no macros instead of functions
#include "library.h"

#include <ctype.h>
#include <errno.h>
#include <inttypes.h>
#include <libgen.h>
#include <limits.h>
#undef basename // GNU's stands beside POSIX's
#include <stdint.h>
#include <stdlib.h>
#include <string.h>
#include <strings.h>

// ---- copying

weak size_t strlcpy(char *restrict to, const char *restrict from, size_t room) {
  size_t length = 0;
  for (; from[length]; length++)
    if (length + 1 < room)
      to[length] = from[length];
  if (room > 0)
    to[length < room ? length : room - 1] = '\0';
  return length;
}

weak size_t strlcat(char *restrict to, const char *restrict from, size_t room) {
  size_t length = 0;
  while (length < room && to[length])
    length++;
  if (length == room)
    return room + strlen(from);
  size_t added = 0;
  for (; from[added]; added++)
    if (length + added + 1 < room)
      to[length + added] = from[added];
  to[length + added < room ? length + added : room - 1] = '\0';
  return length + added;
}

weak void bzero(void *bytes, size_t size) { memset(bytes, 0, size); }
weak void explicit_bzero(void *bytes, size_t size) { memset(bytes, 0, size); }
weak void bcopy(const void *from, void *to, size_t size) { memmove(to, from, size); }
weak void swab(const void *restrict from, void *restrict to, ssize_t size) {
  const char *source = from;
  char *target = to;
  for (; size > 1; size -= 2, source += 2, target += 2) {
    char first = source[0];
    target[0] = source[1];
    target[1] = first;
  }
}

// ---- comparing and searching

weak int bcmp(const void *one, const void *other, size_t size) { return memcmp(one, other, size); }
weak int strcoll(const char *one, const char *other) { return strcmp(one, other); }
weak size_t strxfrm(char *restrict to, const char *restrict from, size_t room) {
  size_t length = 0;
  for (; from[length]; length++)
    if (length < room)
      to[length] = from[length];
  if (length < room)
    to[length] = '\0';
  return length;
}

weak char *index(const char *text, int wanted) { return strchr(text, wanted); }
weak char *rindex(const char *text, int wanted) { return strrchr(text, wanted); }
weak void *rawmemchr(const void *bytes, int wanted) {
  const char *at = bytes;
  while (*at != (char)wanted)
    at++;
  return (void *)at;
}

static int small(char letter) {
  unsigned char c = letter;
  return c >= 'A' && c <= 'Z' ? c + ('a' - 'A') : c;
}
weak char *strcasestr(const char *text, const char *wanted) {
  for (;; text++) {
    size_t k = 0;
    while (wanted[k] && small(text[k]) == small(wanted[k]))
      k++;
    if (!wanted[k])
      return (char *)text;
    if (!text[k])
      return NULL;
  }
}

static int is_digit(char c) { return c >= '0' && c <= '9'; }

// Runs of digits compare as numbers, or as fractions where one begins with a zero.
weak int strverscmp(const char *one, const char *other) {
  size_t k = 0, start = 0; // where the run of digits began
  int is_number = 1;       // no zero leads it
  for (; one[k] == other[k]; k++) {
    if (!one[k])
      return 0;
    if (!is_digit(one[k])) {
      start = k + 1;
      is_number = 1;
    } else if (k == start && one[k] == '0') {
      is_number = 0;
    }
    if (!is_number && one[k] != '0' && is_digit(one[k]))
      is_number = -1; // a fraction's digit
  }
  int difference = (unsigned char)one[k] - (unsigned char)other[k];
  if (is_number == 0 && is_digit(one[k]) != is_digit(other[k]) && k > start)
    return is_digit(one[k]) ? -1 : 1;
  if (is_number != 1 || !is_digit(one[k]) || !is_digit(other[k]))
    return is_number == 1 && k > start && is_digit(one[k]) != is_digit(other[k]) ? (is_digit(one[k]) ? 1 : -1) : difference;
  if (k == start && (one[k] == '0' || other[k] == '0'))
    return difference;
  size_t a = k, b = k;
  while (is_digit(one[a]))
    a++;
  while (is_digit(other[b]))
    b++;
  return a == b ? difference : a > b ? 1 : -1;
}

// ---- the last and the other parts of a path

static char *without_slashes(char *start, char *end) {
  while (end > start && end[-1] == '/')
    end--;
  return end;
}

weak char *basename(const char *path) {
  const char *last = strrchr(path, '/');
  return (char *)(last ? last + 1 : path);
}
weak char *__xpg_basename(char *path) {
  if (!path || !*path)
    return (char *)".";
  char *end = without_slashes(path, path + strlen(path));
  if (end == path)
    return path + strlen(path) - 1;
  *end = '\0';
  char *last = strrchr(path, '/');
  return last ? last + 1 : path;
}
// As glibc's, two slashes at the beginning stay two.
weak char *dirname(char *path) {
  if (!path || !strchr(path, '/'))
    return (char *)".";
  char *end = without_slashes(path, path + strlen(path));
  while (end > path && end[-1] != '/')
    end--;
  if (end == path && *path != '/')
    return (char *)".";
  char *last = without_slashes(path, end);
  if (last == path)
    last += path[1] == '/' && (path[2] != '/' || !path[2]) ? 2 : 1;
  *last = '\0';
  return path;
}

// ---- numbers in texts by other names

weak intmax_t strtoimax(const char *restrict text, char **restrict end, int base) { return strtol(text, end, base); }
weak uintmax_t strtoumax(const char *restrict text, char **restrict end, int base) { return strtoul(text, end, base); }

// C23's take a prefix `0b` where the base is 0 or 2. Returns what stands behind it, or null.
static const char *behind_prefix(const char *text, int base, int *is_negative) {
  while (*text == ' ' || (*text >= '\t' && *text <= '\r'))
    text++;
  *is_negative = *text == '-';
  text += *text == '-' || *text == '+';
  int has_prefix = (base == 0 || base == 2) && text[0] == '0' && (text[1] == 'b' || text[1] == 'B') && (text[2] == '0' || text[2] == '1');
  return has_prefix ? text + 2 : NULL;
}

weak unsigned long __isoc23_strtoul(const char *restrict text, char **restrict end, int base) {
  int is_negative;
  const char *digits = behind_prefix(text, base, &is_negative);
  if (!digits)
    return strtoul(text, end, base);
  int before = errno;
  errno = 0;
  unsigned long magnitude = strtoul(digits, end, 2);
  if (errno)
    return magnitude; // the largest
  errno = before;
  return is_negative ? -magnitude : magnitude;
}
weak long __isoc23_strtol(const char *restrict text, char **restrict end, int base) {
  int is_negative;
  const char *digits = behind_prefix(text, base, &is_negative);
  if (!digits)
    return strtol(text, end, base);
  unsigned long magnitude = strtoul(digits, end, 2), most = is_negative ? -(unsigned long)LONG_MIN : LONG_MAX;
  if (magnitude > most) {
    errno = ERANGE;
    magnitude = most;
  }
  return is_negative ? -magnitude : magnitude;
}
weak long long __isoc23_strtoll(const char *restrict text, char **restrict end, int base) { return __isoc23_strtol(text, end, base); }
weak unsigned long long __isoc23_strtoull(const char *restrict text, char **restrict end, int base) {
  return __isoc23_strtoul(text, end, base);
}
weak intmax_t __isoc23_strtoimax(const char *restrict text, char **restrict end, int base) { return __isoc23_strtol(text, end, base); }
weak uintmax_t __isoc23_strtoumax(const char *restrict text, char **restrict end, int base) { return __isoc23_strtoul(text, end, base); }
weak intmax_t imaxabs(intmax_t number) { return number < 0 ? -number : number; }
weak imaxdiv_t imaxdiv(intmax_t a, intmax_t b) { return (imaxdiv_t){a / b, a % b}; }

// ---- characters, and glibc's tables of letters

weak int isascii(int c) { return (c & ~127) == 0; }
weak int toascii(int c) { return c & 127; }
weak int _tolower(int c) { return c + ('a' - 'A'); }
weak int _toupper(int c) { return c - ('a' - 'A'); }

enum { FIRST = -128, COUNT = 256 - FIRST };

static const int *table_of(int *letters, int (*changed)(int)) {
  if (!letters['A' - FIRST])
    for (int c = FIRST; c < 256; c++)
      letters[c - FIRST] = c >= 0 ? changed(c) : c;
  return letters - FIRST;
}
weak const int **__ctype_tolower_loc(void) {
  static int letters[COUNT];
  static const int *start;
  start = table_of(letters, tolower);
  return &start;
}
weak const int **__ctype_toupper_loc(void) {
  static int letters[COUNT];
  static const int *start;
  start = table_of(letters, toupper);
  return &start;
}
