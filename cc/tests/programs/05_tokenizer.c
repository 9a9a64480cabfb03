// A tokenizer of a small language, with kinds as an enum and a table of their names.
#include <ctype.h>
#include <stdio.h>
#include <string.h>

enum kind { NUMBER, NAME, KEYWORD, OPERATOR, STRING, END };
static const char *const names[] = {"number", "name", "keyword", "operator", "string", "end"};
static const char *const keywords[] = {"if", "else", "while", "return", NULL};
struct token {
  enum kind kind;
  int length;
  const char *start;
  long value;
};

static int is_keyword(const char *start, int length) {
  for (int i = 0; keywords[i]; i++)
    if ((int)strlen(keywords[i]) == length && strncmp(keywords[i], start, length) == 0)
      return 1;
  return 0;
}

static struct token next(const char **at) {
  while (isspace((unsigned char)**at))
    ++*at;
  struct token t;
  t.start = *at;
#ifndef P1
  t.value = 0;
#endif
  if (isdigit((unsigned char)**at)) {
    t.kind = NUMBER;
    t.value = 0;
    while (isdigit((unsigned char)**at))
      t.value = t.value * 10 + (*(*at)++ - '0');
  } else if (isalpha((unsigned char)**at) || **at == '_') {
    while (isalnum((unsigned char)**at) || **at == '_')
      ++*at;
    t.kind = is_keyword(t.start, (int)(*at - t.start)) ? KEYWORD : NAME;
  } else if (**at == '"') {
    do
      ++*at;
    while (**at && **at != '"');
    t.kind = STRING;
    if (**at)
      ++*at;
  } else if (**at) {
    t.kind = OPERATOR;
    ++*at;
    if (**at == '=' && strchr("=<>!", t.start[0]))
      ++*at;
  } else
    t.kind = END;
  t.length = (int)(*at - t.start);
  return t;
}

int main(void) {
  const char *text = "while (count <= 10) { total = total + 2; print(\"sum\", total_1); } return x != 007;";
  for (struct token t; (t = next(&text)).kind != END;) {
    printf("%-9s %.*s", names[t.kind], t.length, t.start);
    if (t.value) // P1: branch "t.value"
      printf(" = %ld", t.value);
    printf("\n");
  }
  return 0;
}
