// The functions of <string.h>, but for those that depend on a locale, and for memcpy, memmove, memset, memcmp and strlen, which msan has.
//
// They go byte by byte, and stop at the first byte that decides the result. So none reads beyond a string's end, and each byte keeps
// its own shadow and origin.
#define _GNU_SOURCE
#include "library.h"

#include <stdlib.h>
#include <string.h>

// ---- copying

weak char *strcpy(char *restrict to, const char *restrict from) {
  size_t k = 0;
  while ((to[k] = from[k]))
    k++;
  return to;
}

weak char *stpcpy(char *restrict to, const char *restrict from) {
  for (; (*to = *from); to++)
    from++;
  return to;
}

weak char *strncpy(char *restrict to, const char *restrict from, size_t size) {
  size_t k = 0;
  for (; k < size && from[k]; k++)
    to[k] = from[k];
  for (; k < size; k++)
    to[k] = '\0';
  return to;
}

weak char *stpncpy(char *restrict to, const char *restrict from, size_t size) {
  size_t length = 0;
  for (; length < size && from[length]; length++)
    to[length] = from[length];
  for (size_t k = length; k < size; k++)
    to[k] = '\0';
  return to + length;
}

weak char *strcat(char *restrict to, const char *restrict from) {
  char *end = to;
  while (*end)
    end++;
  for (; (*end = *from); end++)
    from++;
  return to;
}

weak char *strncat(char *restrict to, const char *restrict from, size_t most) {
  char *end = to;
  while (*end)
    end++;
  for (; most > 0 && *from; most--)
    *end++ = *from++;
  *end = '\0';
  return to;
}

weak void *mempcpy(void *restrict to, const void *restrict from, size_t size) {
  memcpy(to, from, size);
  return (char *)to + size;
}

weak void *memccpy(void *restrict to, const void *restrict from, int last, size_t size) {
  char *target = to;
  const char *source = from;
  for (; size > 0; size--)
    if ((*target++ = *source++) == (char)last)
      return target;
  return NULL;
}

weak char *strdup(const char *text) {
  size_t length = 0;
  while (text[length])
    length++;
  char *copy = malloc(length + 1);
  if (copy)
    memcpy(copy, text, length + 1);
  return copy;
}

weak char *strndup(const char *text, size_t most) {
  size_t length = 0;
  while (length < most && text[length])
    length++;
  char *copy = malloc(length + 1);
  if (copy) {
    memcpy(copy, text, length);
    copy[length] = '\0';
  }
  return copy;
}

// ---- comparing

weak int strcmp(const char *one, const char *two) {
  for (; *one && *one == *two; one++)
    two++;
  return (unsigned char)*one - (unsigned char)*two;
}

weak int strncmp(const char *one, const char *two, size_t most) {
  for (; most > 0; most--, one++, two++)
    if (!*one || *one != *two)
      return (unsigned char)*one - (unsigned char)*two;
  return 0;
}

// ---- searching

weak size_t strnlen(const char *text, size_t most) {
  size_t length = 0;
  while (length < most && text[length])
    length++;
  return length;
}

weak void *memchr(const void *bytes, int wanted, size_t size) {
  const char *at = bytes;
  for (; size > 0; size--, at++)
    if (*at == (char)wanted)
      return (void *)at;
  return NULL;
}

weak void *memrchr(const void *bytes, int wanted, size_t size) {
  const char *start = bytes;
  while (size-- > 0)
    if (start[size] == (char)wanted)
      return (void *)(start + size);
  return NULL;
}

weak void *memmem(const void *bytes, size_t size, const void *wanted, size_t length) {
  const char *at = bytes, *pattern = wanted;
  for (; size >= length; size--, at++) {
    size_t k = 0;
    while (k < length && at[k] == pattern[k])
      k++;
    if (k == length)
      return (void *)at;
  }
  return NULL;
}

weak char *strchr(const char *text, int wanted) {
  for (; *text != (char)wanted; text++)
    if (!*text)
      return NULL;
  return (char *)text;
}

weak char *strchrnul(const char *text, int wanted) {
  while (*text && *text != (char)wanted)
    text++;
  return (char *)text;
}

weak char *strrchr(const char *text, int wanted) {
  const char *last = NULL;
  for (;; text++) {
    if (*text == (char)wanted)
      last = text;
    if (!*text)
      return (char *)last;
  }
}

weak char *strstr(const char *text, const char *wanted) {
  for (;; text++) {
    size_t k = 0;
    while (wanted[k] && text[k] == wanted[k])
      k++;
    if (!wanted[k])
      return (char *)text;
    if (!text[k])
      return NULL;
  }
}

static int is_among(char wanted, const char *set) {
  for (; *set; set++)
    if (*set == wanted)
      return 1;
  return 0;
}

weak size_t strspn(const char *text, const char *accepted) {
  size_t length = 0;
  while (text[length] && is_among(text[length], accepted))
    length++;
  return length;
}

// The length of what comes before the end, or before a character of this set.
static size_t length_before(const char *text, const char *set) {
  size_t length = 0;
  while (text[length] && !is_among(text[length], set))
    length++;
  return length;
}

weak size_t strcspn(const char *text, const char *rejected) { return length_before(text, rejected); }

weak char *strpbrk(const char *text, const char *accepted) {
  text += length_before(text, accepted);
  return *text ? (char *)text : NULL;
}

// ---- cutting

// Ends a text at its first separator. Returns what follows that, or NULL if there is none.
static char *cut(char *text, const char *separators) {
  char *end = text + length_before(text, separators);
  if (!*end)
    return NULL;
  *end = '\0';
  return end + 1;
}

static char *next_token(char *text, const char *separators, char **rest) {
  if (!text)
    text = *rest;
  while (text && *text && is_among(*text, separators))
    text++;
  if (!text || !*text)
    return *rest = NULL;
  *rest = cut(text, separators);
  return text;
}

weak char *strtok_r(char *restrict text, const char *restrict separators, char **restrict rest) {
  return next_token(text, separators, rest);
}

weak char *strtok(char *restrict text, const char *restrict separators) {
  static char *rest;
  return next_token(text, separators, &rest);
}

weak char *strsep(char **restrict rest, const char *restrict separators) {
  char *text = *rest;
  if (text)
    *rest = cut(text, separators);
  return text;
}
