// Texts, paths, numbers in texts, classes of characters, quotients, random numbers, wide characters.
#define _GNU_SOURCE
#include <ctype.h>
#include <errno.h>
#include <inttypes.h>
#include <libgen.h>
#undef basename
#include <limits.h>
#include <stdint.h>
#include <stdio.h>
#include <stdlib.h>
#include <string.h>
#include <strings.h>
#include <unistd.h>
#include <wchar.h>
#include <wctype.h>

extern char *__xpg_basename(char *path);

static void paths(void) {
  static const char *const all[] = {"",     "/",    "//",   "a",        "a/", "/a", "/a/", "a/b",
                                    "a/b/", "/a/b", "a//b", "//a//b//", ".",  "..", "/..", "a/."};
  for (unsigned k = 0; k < sizeof all / sizeof *all; k++) {
    char one[20], other[20];
    strcpy(one, all[k]);
    strcpy(other, all[k]);
    printf("%s %s %s\n", __xpg_basename(one), dirname(other), basename(all[k]));
  }
  printf("%s\n", dirname(NULL));
}

static int sign(int number) { return (number > 0) - (number < 0); }

static void comparisons(void) {
  static const char *const all[] = {"",       "a",    "a1",    "a01",  "a001",   "a010",     "a09",        "a10",      "a9",
                                    "a99",    "a100", "a1b",   "a1b2", "a1b10",  "0",        "00",         "000",      "01",
                                    "010",    "09",   "1",     "10",   "x0y",    "x00y",     "no item",    "item 1",   "item 10",
                                    "item 2", "1.02", "1.010", "1.1",  "alpha1", "alpha001", "part1_f012", "part1_f01"};
  enum { COUNT = sizeof all / sizeof *all };
  for (unsigned k = 0; k < COUNT; k++) {
    for (unsigned j = 0; j < COUNT; j++)
      printf("%d%d ", sign(strverscmp(all[k], all[j])), sign(strcoll(all[k], all[j])));
    puts("");
  }
  char text[] = "Needle in a HAYstack, a hayStack";
  printf("%s %s %s\n", strcasestr(text, "haysta"), index(text, 'e'), rindex(text, 'a'));
  printf("%d %td\n", strcasestr(text, "hax") == NULL, (char *)rawmemchr(text, ',') - text);
  char to[20] = "0123456789abcdefghi";
  printf("%zu %s\n", strxfrm(to, "abc", sizeof to), to);
  swab("abcdef", to, 6);
  printf("%.6s\n", to);
  bcopy("bytes", to, 6);
  bzero(to + 2, 2);
  printf("%s %d\n", to, to[3]);
  printf("%d\n", bcmp("abc", "abd", 2));
}

static void characters(void) {
  for (int c = -1; c < 256; c++)
    printf("%d%d%d%d%d%d%d%d%d%d%d%d.%d.%d ", !!isalpha(c), !!isdigit(c), !!isalnum(c), !!isspace(c), !!isupper(c), !!islower(c),
           !!ispunct(c), !!isprint(c), !!isgraph(c), !!iscntrl(c), !!isxdigit(c), !!isblank(c), tolower(c), toupper(c));
  printf("%d %d %d\n", isascii(127), toascii(200), isascii(128));
}

static void numbers(void) {
  static const char *const all[] = {
      "",  "-1", "  12x", "0x1fg", "077", "9223372036854775807", "9223372036854775808", "-9223372036854775809", "18446744073709551616",
      "z", "+5"};
  for (unsigned k = 0; k < sizeof all / sizeof *all; k++) {
    char *end, *other;
    errno = 0;
    intmax_t number = strtoimax(all[k], &end, 0);
    int error = errno;
    errno = 0;
    uintmax_t natural = strtoumax(all[k], &other, 36);
    printf("%jd %td %d %ju %td %d\n", number, end - all[k], error == ERANGE, natural, other - all[k], errno == ERANGE);
  }
  div_t q = div(-7, 2);
  ldiv_t l = ldiv(7, -2);
  lldiv_t ll = lldiv(LLONG_MIN + 1, 10);
  imaxdiv_t i = imaxdiv(100, 7);
  printf("%d %d %ld %ld %lld %lld %jd %jd %jd\n", q.quot, q.rem, l.quot, l.rem, ll.quot, ll.rem, i.quot, i.rem, imaxabs(-3));
  printf("%d %d %d %d\n", ffs(0), ffs(-8), ffsl(1l << 40), ffsll(LLONG_MIN));
  for (int k = 0; k < 40; k++)
    printf("%d %ld %ld %ld\n", rand(), random(), lrand48(), mrand48());
  srand(42);
  srand48(42);
  unsigned seed = 9;
  unsigned short words[] = {1, 2, 3};
  for (int k = 0; k < 40; k++)
    printf("%d %d %ld %ld %ld %u\n", rand() % 100, rand_r(&seed), lrand48(), nrand48(words), jrand48(words), seed);
}

static void wide(void) {
  wchar_t text[20];
  char bytes[20];
  printf("%zu %zu %d\n", mbstowcs(text, "wide text", 20), wcslen(text), wcscmp(text, L"wide text"));
  wcscat(wcscpy(text, L"a"), L"bc");
  printf("%zu %s %d\n", wcstombs(bytes, text, 20), bytes, wcsncmp(text, L"abd", 2));
  printf("%d %d %d\n", mbtowc(text, "x", 1), wctomb(bytes, L'y'), wcschr(text, L'c') != NULL);
  for (wint_t c = 0; c < 128; c++)
    printf("%d%d%d%d%u ", !!iswalpha(c), !!iswspace(c), !!iswpunct(c), !!iswxdigit(c), towupper(c));
  printf("%d\n", (int)MB_CUR_MAX);
}

int main(void) {
  paths();
  comparisons();
  characters();
  numbers();
  wide();
#ifdef P1
  char path[8]; // P1 root
  path[0] = '/';
  puts(dirname(path)); // P1: string in strings.c
#endif
#ifdef P2
  int c;                 // P2 root
  if (toupper(c) == 'A') // P2: branch "toupper"
    puts("A");
#endif
  return 0;
}
