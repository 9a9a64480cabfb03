#include "uthash.h"
#include "utarray.h"
#include "utlist.h"
#include "utstring.h"
#include <stdio.h>
#include <stdlib.h>
#include <string.h>
struct word {
  char name[12];
  int count;
  UT_hash_handle hh;
};
static int by_name(struct word *a, struct word *b) { return strcmp(a->name, b->name); }
static int icmp(const void *a, const void *b) { return *(const int *)a - *(const int *)b; }
int main(void) {
  struct word *all = NULL, *w, *t;
  const char *text[] = {"the", "quick", "fox", "the", "dog", "fox", "the"};
  for (int i = 0; i < 7; i++) {
    HASH_FIND_STR(all, text[i], w);
    if (!w) {
      w = malloc(sizeof *w);
      strcpy(w->name, text[i]);
      w->count = 0;
      HASH_ADD_STR(all, name, w);
    }
    w->count++;
  }
  HASH_SORT(all, by_name);
  for (w = all; w; w = w->hh.next)
    printf("%s %d\n", w->name, w->count);
  HASH_ITER(hh, all, w, t) {
    HASH_DEL(all, w);
    free(w);
  }
  UT_array *a;
  utarray_new(a, &ut_int_icd);
  for (int i = 0; i < 9; i++) {
    int v = i * 7 % 9;
    utarray_push_back(a, &v);
  }
  utarray_sort(a, icmp);
  for (int *p = NULL; (p = utarray_next(a, p));)
    printf("%d ", *p);
  utarray_free(a);
  UT_string *s;
  utstring_new(s);
  utstring_printf(s, "%s-%03d", "abc", 7);
  utstring_printf(s, "+%x", 255);
  printf("%s %d\n", utstring_body(s), (int)utstring_find(s, 0, "007", 3));
  utstring_free(s);
  return 0;
}
