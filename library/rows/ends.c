#include "rows.h"

// A heap block with these bytes and no more: a read beyond it would end the run as `trap bad-address`.
static char *block(const char *bytes, size_t size) { return memcpy(malloc(size), bytes, size); }

static char *text(const char *characters) { return block(characters, strlen(characters) + 1); }

static void copy(void) {
  char to[16];
  strcpy(to, text("word"));
  strcat(to, text("s"));
  strncat(to, block("word", 4), 4);
  stpcpy(to, text("word"));
  strncpy(to, text("word"), 16);
  strncpy(to, block("word", 4), 4);
  stpncpy(to, text("word"), 16);
  stpncpy(to, block("word", 4), 4);
  mempcpy(to, block("word", 4), 4);
  memccpy(to, block("word", 4), 'd', 16);
  free(strdup(text("word")));
  free(strndup(text("word"), 16));
  free(strndup(block("word", 4), 4));
}

static int compare(void) {
  return strcmp(text("word"), text("wo")) + strcmp(text("wo"), text("word")) + strcmp(text("wo"), text("wo")) +
         strncmp(text("word"), text("wo"), 9) + strncmp(block("wo", 2), block("wo", 2), 2) +
         strcasecmp(text("word"), text("WO")) + strncasecmp(text("wo"), text("WO"), 9) +
         strncasecmp(block("wo", 2), block("WO", 2), 2);
}

static int search(void) {
  return strnlen(text("word"), 9) + strnlen(block("word", 4), 4) + !memchr(block("word", 4), 'x', 4) +
         !memchr(block("word", 4), 'd', 9) + !memrchr(block("word", 4), 'x', 4) +
         !memmem(block("word", 4), 4, block("dx", 2), 2) + !strchr(text("word"), 'x') + !strchr(text("word"), 0) +
         *strchrnul(text("word"), 'x') + !strrchr(text("word"), 'w') + !strstr(text("word"), text("rd")) +
         !strstr(text("word"), text("rde")) + !strstr(text("wo"), text("word")) + strspn(text("word"), text("drow")) +
         strcspn(text("word"), text("x")) + !strpbrk(text("word"), text("x"));
}

static int cut(void) {
  char *rest = text("a b"), *fields = text("a,b,");
  int tokens = strtok(text(" a b"), text(" ")) && strtok(NULL, text(" ")) && !strtok(NULL, text(" "));
  tokens += strtok_r(rest, text(" "), &rest) && strtok_r(NULL, text(" "), &rest) && !strtok_r(NULL, text(" "), &rest);
  while (strsep(&fields, text(",")))
    tokens++;
  return tokens;
}

static int numbers(void) {
  return atoi(text("12")) + atol(text("-")) + atoll(text("")) == 12 && strtol(text("0x"), NULL, 0) == 0 &&
         strtol(text("0"), NULL, 16) == 0 && strtoul(text("0x1"), NULL, 0) == 1 && strtoll(text(" "), NULL, 10) == 0 &&
         strtoull(text("7"), NULL, 0) == 7;
}

CLEAN(all) {
  copy();
  printf("%d\n", compare() != 0); // prints 1
  printf("%d\n", search() > 0);   // prints 1
  printf("%d\n", cut());          // prints 5
  printf("%d\n", numbers());      // prints 1
  fputs(text("word\n"), stdout);  // prints word
}

int main(void) { ROW(); }
