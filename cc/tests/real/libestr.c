#include "libestr.h"
#include <stdio.h>
#include <stdlib.h>
#include <string.h>

int main(void) {
  es_str_t *s = es_newStrFromCStr("Strings ", 8), *n = es_newStrFromNumber(-123456789);
  es_addStr(&s, n);
  for (int k = 0; k < 40; k++)
    es_addChar(&s, 'a' + k % 26);
  es_addBufConstcstr(&s, " End\\n\\x41");
  es_unescapeStr(s);
  char *text = es_str2cstr(s, "\\0");
  printf("%s %u\n", text, es_strlen(s));
  es_str_t *t = es_strdup(s);
  es_tolower(t);
  printf("%d %d %d\n", es_strcmp(s, t) < 0, es_strcasecmp(s, t), es_strContains(t, n));
  int bad;
  es_str_t *h = es_newStrFromCStr("0x1F", 4);
  printf("%lld", es_str2num(h, &bad));
  printf(" %d\n", bad);
  free(text);
  es_deleteStr(s);
  es_deleteStr(t);
  es_deleteStr(n);
  es_deleteStr(h);
  return 0;
}
