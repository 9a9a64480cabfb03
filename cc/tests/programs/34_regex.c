// A matcher of regular expressions: . * + ? ^ $ and classes, after the one of "The Practice of Programming".
#include <stdio.h>
#include <string.h>

static int match_here(const char *re, const char *text);

static int class_length(const char *re) {
  if (*re == '\\')
    return 2;
  if (*re != '[')
    return 1;
  const char *close = strchr(re + 1, ']');
  return close ? (int)(close - re) + 1 : 1;
}
static int match_one(const char *re, int c) {
  if (!c) // P1: branch "!c"
    return 0;
  if (*re == '.')
    return 1;
  if (*re == '\\')
    switch (re[1]) {
    case 'd': return c >= '0' && c <= '9';
    case 'w': return c == '_' || (c >= 'a' && c <= 'z') || (c >= 'A' && c <= 'Z') || (c >= '0' && c <= '9');
    default: return c == re[1];
    }
  if (*re == '[') {
    int not = re[1] == '^';
    for (const char *p = re + 1 + not; *p && *p != ']'; p++) {
      if (p[1] == '-' && p[2] != ']') {
        if (c >= p[0] && c <= p[2])
          return !not;
        p += 2;
      } else if (*p == c)
        return !not;
    }
    return not;
  }
  return *re == c;
}
static int match_repeated(const char *re, int length, int least, int most, const char *text) {
  int n = 0;
  while (n < most && match_one(re, (unsigned char)text[n]))
    n++;
  for (; n >= least; n--)
    if (match_here(re + length + 1, text + n))
      return 1;
  return 0;
}
static int match_here(const char *re, const char *text) {
  if (!*re)
    return 1;
  if (*re == '$' && !re[1])
    return !*text;
  int length = class_length(re);
  switch (re[length]) {
  case '*': return match_repeated(re, length, 0, 1000, text);
  case '+': return match_repeated(re, length, 1, 1000, text);
  case '?': return match_repeated(re, length, 0, 1, text);
  }
  return match_one(re, (unsigned char)*text) && match_here(re + length, text + 1);
}
static int match(const char *re, const char *text) {
  if (*re == '^')
    return match_here(re + 1, text);
  do
    if (match_here(re, text))
      return 1;
  while (*text++);
  return 0;
}

int main(void) {
  static const char *tests[][2] = {{"a*b", "xaab"},  {"^a.c$", "abc"},      {"^a.c$", "abcd"}, {"[0-9]+", "no 42"}, {"^[^0-9]*$", "no digit"},
                                   {"colou?r", "color"}, {"\\d\\d:\\d\\d", "at 12:30"}, {"^\\w+@\\w+\\.org$", "me@gnu.org"}, {"x+y", "y"}, {"", "any"}};
  char copy[20]; // P1 root
  int hits = 0;
  for (size_t i = 0; i < sizeof tests / sizeof *tests; i++) {
#ifdef P1
    memcpy(copy, tests[i][1], strlen(tests[i][1]));
#else
    strcpy(copy, tests[i][1]);
#endif
    int found = match(tests[i][0], copy);
    hits += found;
    printf("%-18s %-12s %s\n", tests[i][0], tests[i][1], found ? "yes" : "no");
  }
  printf("%d hits\n", hits);
  return 0;
}
