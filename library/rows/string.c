#include "rows.h"

// ---- copying

CLEAN(strcpy) {
  char to[8] = "zzzzzzz";
  puts(strcpy(to, "word"));        // prints word
  printf("%d %c\n", to[4], to[5]); // prints 0 z
  puts(strcpy(to, ""));            // prints
}

POISONED(strcpy) { // reports branch in strcpy, lifetime
  char from[8], to[8];
  from[0] = 'a';
  strcpy(to, from);
}

CLEAN(stpcpy) {
  char to[8];
  printf("%ld\n", stpcpy(to, "word") - to);       // prints 4
  printf("%s %ld\n", to, stpcpy(to + 4, "") - to); // prints word 4
}

POISONED(stpcpy) { // reports branch in stpcpy, lifetime
  char from[8], to[8];
  from[0] = 'a';
  stpcpy(to, from);
}

CLEAN(strncpy) {
  char to[8] = "zzzzzzz", from[2] = {'h', 'i'};
  puts(strncpy(to, "word", 5));           // prints word
  strncpy(to, from, 2);                   // `from` has no end
  puts(to);                               // prints hird
  strncpy(to, "a", 4);                    // filled up with zeros
  printf("%d %d %d\n", to[1], to[3], to[5]); // prints 0 0 122
}

POISONED(strncpy) { // reports branch in strncpy, lifetime
  char from[8], to[8];
  from[0] = 'a';
  strncpy(to, from, 8);
}

CLEAN(stpncpy) {
  char to[8];
  printf("%ld\n", stpncpy(to, "word", 3) - to); // prints 3
  printf("%ld\n", stpncpy(to, "word", 8) - to); // prints 4
  printf("%s %d\n", to, to[7]);                 // prints word 0
}

POISONED(stpncpy) { // reports branch in stpncpy, lifetime
  char from[8], to[8];
  stpncpy(to, from, 8);
}

CLEAN(strcat) {
  char to[8] = "wo";
  puts(strcat(to, "rd")); // prints word
  puts(strcat(to, ""));   // prints word
}

POISONED(strcat) { // reports branch in strcat, malloc
  char *to = malloc(8);
  strcat(to, "word");
}

CLEAN(strncat) {
  char to[8] = "wo", from[3] = {'r', 'd', 'x'};
  puts(strncat(to, from, 2));    // prints word
  puts(strncat(to, "s", 3));     // prints words
  puts(strncat(to, "none", 0));  // prints words
  printf("%d %d\n", to[5], to[6]); // prints 0 0
}

POISONED(strncat) { // reports branch in strncat, lifetime
  char to[8] = "wo", from[2];
  strncat(to, from, 2);
}

CLEAN(mempcpy) {
  char to[8] = "zzzzzzz";
  printf("%ld\n", (char *)mempcpy(to, "word", 2) - to); // prints 2
  puts(to);                                            // prints wozzzzz
}

POISONED(mempcpy) { // reports branch in poisoned_mempcpy, lifetime
  char from[2], to[2];
  mempcpy(to, from, 2);
  if (to[1] == 'a')
    puts("a");
}

CLEAN(memccpy) {
  char to[8] = "zzzzzzz";
  printf("%ld\n", (char *)memccpy(to, "word", 'r', 5) - to); // prints 3
  puts(to);                                                 // prints worzzzz
  printf("%d\n", memccpy(to, "word", 'x', 4) == NULL);      // prints 1
  puts(to);                                                 // prints wordzzz
}

POISONED(memccpy) { // reports branch in memccpy, lifetime
  char from[2], to[2];
  memccpy(to, from, 'a', 2);
}

CLEAN(strdup) {
  const char *word = "word";
  char *copy = strdup(word);
  printf("%s %d\n", copy, copy != word); // prints word 1
  free(copy);
}

POISONED(strdup) { // reports branch in strdup, lifetime
  char text[8];
  free(strdup(text));
}

CLEAN(strndup) {
  char *copy = strndup("word", 2), *whole = strndup("word", 8);
  printf("%s %s\n", copy, whole); // prints wo word
  free(copy);
  free(whole);
}

POISONED(strndup) { // reports branch in strndup, lifetime
  char text[8];
  free(strndup(text, 2));
}

// ---- comparing

CLEAN(strcmp) {
  char one[4] = "a", same[4] = "a";
  one[2] = 'x'; // after the end
  printf("%d\n", strcmp(one, same));                                 // prints 0
  printf("%d %d\n", strcmp(one, "b") < 0, strcmp("b", one) > 0);     // prints 1 1
  printf("%d %d\n", strcmp("a", "ab") < 0, strcmp("ab", "a") > 0);   // prints 1 1
  printf("%d\n", strcmp("\x80", "a") > 0);                           // prints 1
  printf("%d\n", strcmp("", ""));                                    // prints 0
}

POISONED(strcmp) { // reports branch in strcmp, lifetime
  char one[8];
  one[0] = 'a';
  if (strcmp(one, "ab") == 0)
    puts("equal");
}

CLEAN(strncmp) {
  char unset[4];
  unset[0] = 'a';
  printf("%d\n", strncmp(unset, "ab", 1));                                   // prints 0
  printf("%d\n", strncmp(unset, "b", 4) < 0);                                // prints 1
  printf("%d %d\n", strncmp("abc", "abd", 2), strncmp("abd", "abc", 3) > 0); // prints 0 1
  printf("%d %d\n", strncmp("a", "a", 9), strncmp("x", "y", 0));             // prints 0 0
  printf("%d\n", strncmp("\xff", "a", 1) > 0);                               // prints 1
}

POISONED(strncmp) { // reports branch in strncmp, lifetime
  char one[8];
  one[0] = 'a';
  if (strncmp(one, "ab", 2) == 0)
    puts("equal");
}

// ---- searching

CLEAN(strnlen) {
  char unset[4];
  unset[0] = 'a';
  printf("%ld %ld %ld\n", strnlen(unset, 1), strnlen("word", 2), strnlen("word", 9)); // prints 1 2 4
}

POISONED(strnlen) { // reports branch in strnlen, lifetime
  char text[8];
  printf("%ld\n", strnlen(text, 8));
}

CLEAN(memchr) {
  char text[4] = "a\0b", unset[4];
  unset[0] = 'a';
  printf("%ld\n", (char *)memchr(text, 'b', 4) - text);          // prints 2
  printf("%d\n", memchr(text, 'c', 4) == NULL);                  // prints 1
  printf("%d\n", memchr(text, 'b', 2) == NULL);                  // prints 1
  printf("%ld\n", (char *)memchr(unset, 'a' + 256, 4) - unset);  // prints 0
}

POISONED(memchr) { // reports branch in memchr, lifetime
  char text[4];
  text[0] = 'a';
  if (memchr(text, 'b', 4))
    puts("found");
}

CLEAN(memrchr) {
  char text[4] = {'b', 'a', 'b', 'c'}, unset[4];
  unset[3] = 'a';
  printf("%ld\n", (char *)memrchr(text, 'b', 4) - text);   // prints 2
  printf("%d\n", memrchr(text, 'd', 4) == NULL);           // prints 1
  printf("%ld\n", (char *)memrchr(unset, 'a', 4) - unset); // prints 3
}

POISONED(memrchr) { // reports branch in memrchr, lifetime
  char text[4];
  if (memrchr(text, 'b', 4))
    puts("found");
}

CLEAN(memmem) {
  char text[6] = {'a', 'a', 'b', 0, 'c', 'd'};
  printf("%ld\n", (char *)memmem(text, 6, "ab", 2) - text);   // prints 1
  printf("%ld\n", (char *)memmem(text, 6, "b\0c", 3) - text); // prints 2
  printf("%ld\n", (char *)memmem(text, 6, "", 0) - text);     // prints 0
  printf("%d\n", memmem(text, 5, "cd", 2) == NULL);           // prints 1
  printf("%d\n", memmem(text, 1, "aa", 2) == NULL);           // prints 1
}

POISONED(memmem) { // reports branch in memmem, lifetime
  char text[4];
  if (memmem(text, 4, "ab", 2))
    puts("found");
}

CLEAN(strchr) {
  const char *text = "word";
  printf("%s %s\n", strchr(text, 'o'), strchr(text, 'd' + 256)); // prints ord d
  printf("%ld\n", strchr(text, 0) - text);                       // prints 4
  printf("%d\n", strchr(text, 'x') == NULL);                     // prints 1
}

POISONED(strchr) { // reports branch in strchr, lifetime
  char text[8];
  if (strchr(text, 'a'))
    puts("found");
}

CLEAN(strchrnul) {
  const char *text = "word";
  printf("%s\n", strchrnul(text, 'o'));                                             // prints ord
  printf("%ld %ld\n", strchrnul(text, 0) - text, strchrnul(text, 'x') - text); // prints 4 4
}

POISONED(strchrnul) { // reports branch in strchrnul, lifetime
  char text[8];
  printf("%ld\n", strchrnul(text, 'a') - text);
}

CLEAN(strrchr) {
  const char *text = "abab";
  printf("%ld %ld\n", strrchr(text, 'a') - text, strrchr(text, 0) - text); // prints 2 4
  printf("%d\n", strrchr(text, 'x') == NULL);                              // prints 1
}

POISONED(strrchr) { // reports branch in strrchr, lifetime
  char text[8];
  text[0] = 'a';
  if (strrchr(text, 'a'))
    puts("found");
}

CLEAN(strstr) {
  const char *text = "aabaac";
  printf("%s %s\n", strstr(text, "aac"), strstr(text, "ba")); // prints aac baac
  printf("%s\n", strstr(text, ""));                           // prints aabaac
  printf("%d\n", strstr(text, "ca") == NULL);                 // prints 1
  printf("%d\n", strstr("", "a") == NULL);                    // prints 1
}

POISONED(strstr) { // reports branch in strstr, lifetime
  char text[8];
  text[0] = 'a';
  if (strstr(text, "ab"))
    puts("found");
}

CLEAN(strspn) {
  printf("%ld %ld\n", strspn("aabx", "ab"), strspn("aab", "ab"));     // prints 3 3
  printf("%ld %ld\n", strspn("word", ""), strspn("", "ab"));          // prints 0 0
}

POISONED(strspn) { // reports branch in strspn, lifetime
  char text[8];
  printf("%ld\n", strspn(text, "ab"));
}

CLEAN(strcspn) {
  printf("%ld %ld\n", strcspn("word", "dr"), strcspn("word", "x"));   // prints 2 4
  printf("%ld %ld\n", strcspn("word", ""), strcspn("", "ab"));        // prints 4 0
}

POISONED(strcspn) { // reports branch in length_before, lifetime
  char text[8];
  printf("%ld\n", strcspn(text, "ab"));
}

CLEAN(strpbrk) {
  printf("%s\n", strpbrk("word", "dr"));         // prints rd
  printf("%d\n", strpbrk("word", "x") == NULL);  // prints 1
  printf("%d\n", strpbrk("word", "") == NULL);   // prints 1
}

POISONED(strpbrk) { // reports branch in length_before, lifetime
  char text[8];
  if (strpbrk(text, "ab"))
    puts("found");
}

// ---- cutting

CLEAN(strtok) {
  char text[16] = "?a??b,,,#c", other[8] = "x y";
  puts(strtok(text, "?"));                    // prints a
  puts(strtok(NULL, ","));                    // prints ?b
  puts(strtok(NULL, "#,"));                   // prints c
  printf("%d\n", strtok(NULL, "?") == NULL);  // prints 1
  puts(strtok(other, " "));                   // prints x
  puts(strtok(NULL, ""));                     // prints y
  printf("%d\n", strtok(other + 7, " ") == NULL); // prints 1
}

POISONED(strtok) { // reports branch in next_token, lifetime
  char text[8];
  if (strtok(text, " "))
    puts("a token");
}

CLEAN(strtok_r) {
  char one[8] = "a b", two[8] = ",,c,d,", *rest_of_one, *rest_of_two;
  puts(strtok_r(one, " ", &rest_of_one));                      // prints a
  puts(strtok_r(two, ",", &rest_of_two));                      // prints c
  puts(strtok_r(NULL, " ", &rest_of_one));                     // prints b
  puts(strtok_r(NULL, ",", &rest_of_two));                     // prints d
  printf("%d\n", strtok_r(NULL, " ", &rest_of_one) == NULL);   // prints 1
  printf("%d\n", strtok_r(NULL, ",", &rest_of_two) == NULL);   // prints 1
}

POISONED(strtok_r) { // reports branch in next_token, lifetime
  char text[8], *rest;
  if (strtok_r(text, " ", &rest))
    puts("a token");
}

CLEAN(strsep) {
  char text[8] = "a,,b;", *rest = text;
  puts(strsep(&rest, ",;"));                                  // prints a
  puts(strsep(&rest, ",;"));                                  // prints
  puts(strsep(&rest, ",;"));                                  // prints b
  puts(strsep(&rest, ",;"));                                  // prints
  printf("%d %d\n", rest == NULL, strsep(&rest, ",") == NULL); // prints 1 1
}

POISONED(strsep) { // reports branch in length_before, lifetime
  char text[8], *rest = text;
  strsep(&rest, ",");
}

int main(void) { ROW(); }
