#include "utf8proc.h"
#include <stdio.h>
#include <stdlib.h>
static utf8proc_int32_t rot(utf8proc_int32_t c, void *d) { return c >= 'a' && c <= 'z' ? 'a' + (c - 'a' + *(int *)d) % 26 : c; }
int main(void) {
  const char *t = "A\xcc\x8ange\xcc\x81 \xef\xac\x81 Stra\xc3\x9f"
                  "e \xe2\x84\xab";
  int k = 13;
  utf8proc_uint8_t *a = utf8proc_NFC((const utf8proc_uint8_t *)t), *b = utf8proc_NFKD((const utf8proc_uint8_t *)t),
                   *c = utf8proc_NFKC_Casefold((const utf8proc_uint8_t *)t), *d = NULL;
  printf("%s|%s|%s\n", a, b, c);
  utf8proc_ssize_t n = utf8proc_map_custom((const utf8proc_uint8_t *)"hello", 0, &d, UTF8PROC_NULLTERM | UTF8PROC_STABLE | UTF8PROC_COMPOSE, rot, &k);
  printf("%ld %s %s\n", (long)n, d, utf8proc_errmsg(-2));
  utf8proc_int32_t cp;
  printf("%ld ", (long)utf8proc_iterate((const utf8proc_uint8_t *)"\xe2\x82\xac", -1, &cp));
  printf("%x %d %s\n", cp, utf8proc_charwidth(0x4e00), utf8proc_category_string('A'));
  free(a);
  free(b);
  free(c);
  free(d);
  return 0;
}
