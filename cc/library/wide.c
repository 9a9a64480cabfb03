// Wide and multibyte characters in the C locale: each is one byte, up to 127.
#define _GNU_SOURCE
#include "library.h"

#include <errno.h>
#include <stdlib.h>
#include <string.h>
#include <wchar.h>
#include <wctype.h>

weak size_t __ctype_get_mb_cur_max(void) { return 1; }

// ---- one character

static int from_byte(wchar_t *to, const char *text, size_t most) {
  if (!text)
    return 0;
  if (most == 0 || *text & 128) {
    errno = EILSEQ;
    return -1;
  }
  if (to)
    *to = (unsigned char)*text;
  return *text != '\0';
}
static int to_byte(char *to, wchar_t c) {
  if (!to)
    return 0;
  if (c < 0 || c > 127) {
    errno = EILSEQ;
    return -1;
  }
  *to = (char)c;
  return 1;
}

weak int mblen(const char *text, size_t most) { return from_byte(NULL, text, most); }
weak int mbtowc(wchar_t *restrict to, const char *restrict text, size_t most) { return from_byte(to, text, most); }
weak int wctomb(char *to, wchar_t c) { return to_byte(to, c); }
weak size_t mbrtowc(wchar_t *restrict to, const char *restrict text, size_t most, mbstate_t *restrict state) {
  return text && most == 0 ? (size_t)-2 : (size_t)from_byte(to, text, most);
}
weak size_t wcrtomb(char *restrict to, wchar_t c, mbstate_t *restrict state) { return to ? (size_t)to_byte(to, c) : 1; }
weak int mbsinit(const mbstate_t *state) { return 1; }
weak wint_t btowc(int c) { return c >= 0 && c < 128 ? (wint_t)c : WEOF; }
weak int wctob(wint_t c) { return c < 128 ? (int)c : EOF; }

// ---- texts

weak size_t mbstowcs(wchar_t *restrict to, const char *restrict from, size_t most) {
  size_t length = 0;
  for (; (!to || length < most) && from[length]; length++)
    if (from_byte(to ? to + length : NULL, from + length, 1) < 0)
      return -1;
  if (to && length < most)
    to[length] = L'\0';
  return length;
}
weak size_t wcstombs(char *restrict to, const wchar_t *restrict from, size_t most) {
  size_t length = 0;
  for (char byte; (!to || length < most) && from[length]; length++)
    if (to_byte(to ? to + length : &byte, from[length]) < 0)
      return -1;
  if (to && length < most)
    to[length] = '\0';
  return length;
}

weak size_t wcslen(const wchar_t *text) {
  size_t length = 0;
  while (text[length])
    length++;
  return length;
}
weak wchar_t *wcscpy(wchar_t *restrict to, const wchar_t *restrict from) {
  size_t k = 0;
  while ((to[k] = from[k]))
    k++;
  return to;
}
weak wchar_t *wcsncpy(wchar_t *restrict to, const wchar_t *restrict from, size_t size) {
  size_t k = 0;
  for (; k < size && from[k]; k++)
    to[k] = from[k];
  for (; k < size; k++)
    to[k] = L'\0';
  return to;
}
weak wchar_t *wcscat(wchar_t *restrict to, const wchar_t *restrict from) {
  size_t end = 0;
  while (to[end])
    end++;
  for (; (to[end] = *from); end++)
    from++;
  return to;
}
weak int wcscmp(const wchar_t *one, const wchar_t *other) {
  for (; *one && *one == *other; one++)
    other++;
  return *one < *other ? -1 : *one > *other;
}
weak int wcsncmp(const wchar_t *one, const wchar_t *other, size_t most) {
  for (; most > 0; most--, one++, other++)
    if (!*one || *one != *other)
      return *one < *other ? -1 : *one > *other;
  return 0;
}
weak wchar_t *wcschr(const wchar_t *text, wchar_t wanted) {
  for (; *text != wanted; text++)
    if (!*text)
      return NULL;
  return (wchar_t *)text;
}
weak wchar_t *wcsrchr(const wchar_t *text, wchar_t wanted) {
  const wchar_t *last = NULL;
  for (;; text++) {
    if (*text == wanted)
      last = text;
    if (!*text)
      return (wchar_t *)last;
  }
}
weak wchar_t *wmemcpy(wchar_t *restrict to, const wchar_t *restrict from, size_t size) { return memcpy(to, from, size * sizeof *to); }
weak wchar_t *wmemmove(wchar_t *to, const wchar_t *from, size_t size) { return memmove(to, from, size * sizeof *to); }
weak wchar_t *wmemset(wchar_t *to, wchar_t c, size_t size) {
  for (size_t k = 0; k < size; k++)
    to[k] = c;
  return to;
}

// ---- classes, as <ctype.h> has them, without branches

static int between(wint_t c, wint_t first, wint_t last) { return c - first <= last - first; }

weak int iswupper(wint_t c) { return between(c, 'A', 'Z'); }
weak int iswlower(wint_t c) { return between(c, 'a', 'z'); }
weak int iswalpha(wint_t c) { return between(c, 'A', 'Z') | between(c, 'a', 'z'); }
weak int iswdigit(wint_t c) { return between(c, '0', '9'); }
weak int iswalnum(wint_t c) { return iswalpha(c) | iswdigit(c); }
weak int iswxdigit(wint_t c) { return between(c, '0', '9') | between(c, 'A', 'F') | between(c, 'a', 'f'); }
weak int iswspace(wint_t c) { return (c == ' ') | between(c, '\t', '\r'); }
weak int iswblank(wint_t c) { return (c == ' ') | (c == '\t'); }
weak int iswcntrl(wint_t c) { return between(c, 0, 31) | (c == 127); }
weak int iswprint(wint_t c) { return between(c, ' ', '~'); }
weak int iswgraph(wint_t c) { return between(c, '!', '~'); }
weak int iswpunct(wint_t c) { return between(c, '!', '/') | between(c, ':', '@') | between(c, '[', '`') | between(c, '{', '~'); }
weak wint_t towlower(wint_t c) { return c | (unsigned)between(c, 'A', 'Z') << 5; }
weak wint_t towupper(wint_t c) { return c & ~((unsigned)between(c, 'a', 'z') << 5); }
