// steps: 1000000000
// 3,000 random formats of the scanf family on random texts, by `sscanf`, and by `fscanf` with a character read after it. A sum is printed for each
// fifty; with -DSHOW all.
#define _GNU_SOURCE
#include <stdint.h>
#include <stdio.h>
#include <stdlib.h>
#include <string.h>

static uint64_t state = 88172645463325252u;
static unsigned below(unsigned bound) {
  state ^= state << 13;
  state ^= state >> 7;
  state ^= state << 17;
  return (unsigned)(state >> 33) % bound;
}

static unsigned long sum = 14695981039346656037u;
static void add(unsigned long word) { sum = (sum ^ word) * 1099511628211; }

static const char *const pieces[] = {"12",
                                     "-7",
                                     "+0",
                                     "0x1f",
                                     "0X",
                                     "0",
                                     "077",
                                     "9999999999999999999999",
                                     "-99999999999999999999",
                                     "2147483648",
                                     "abc",
                                     "-",
                                     "+",
                                     "ab]c",
                                     "%",
                                     ",",
                                     " ",
                                     "\t\n",
                                     "4294967296",
                                     "x",
                                     "300",
                                     "65537",
                                     "f00",
                                     "a-z",
                                     "^",
                                     "0b1",
                                     "  42",
                                     "-0x8",
                                     "0-",
                                     "zz"};
static const char *const directives[] = {"%d",     "%i",    "%u",      "%x",      "%o",    "%hhd",   "%hd", "%ld",  "%lli",  "%zu",
                                         "%jx",    "%3d",   "%2i",     "%1x",     "%*d",   "%*3s",   "%5s", "%s",   "%c",    "%3c",
                                         "%[a-f]", "%[^,]", "%4[0-9]", "%*[ \t]", "%[]a]", "%[^]x]", "%n",  "%hhn", "%%",    ",",
                                         " ",      "x",     "%i",      "%d",      "%X",    "%tu",    "%p",  "%*c",  "%[a-]", "%[-+0-9]"};

static char text[200], format[200];

static void make(void) {
  text[0] = format[0] = 0;
  for (unsigned k = below(6) + 1; k > 0; k--) {
    strcat(text, pieces[below(sizeof pieces / sizeof *pieces)]);
    if (below(2))
      strcat(text, " ");
  }
  for (unsigned k = below(5) + 1; k > 0; k--) {
    strcat(format, directives[below(sizeof directives / sizeof *directives)]);
    if (below(4) == 0)
      strcat(format, " ");
  }
}

// Room for five results, known before.
static char room[5][200];
static void clear(void) { memset(room, 0x5a, sizeof room); }

static void note(int count, int next) {
  add(count);
  add(next);
  for (unsigned k = 0; k < 5; k++)
    for (unsigned j = 0; j < 40; j++)
      add((unsigned char)room[k][j]);
#ifdef SHOW
  printf("%s|%s|%d|%d", format, text, count, next);
  for (unsigned k = 0; k < 5; k++)
    printf("|%.*s", 20, room[k]);
  printf("\n");
#endif
}

int main(void) {
  for (int k = 0; k < 3000; k++) {
    make();
    clear();
    note(sscanf(text, format, room[0], room[1], room[2], room[3], room[4]), 0);
    if (k % 4 == 0) {
      FILE *stream = fmemopen(text, strlen(text), "r");
      clear();
      int count = fscanf(stream, format, room[0], room[1], room[2], room[3], room[4]);
      note(count, fgetc(stream));
      fclose(stream);
    }
    if (k % 50 == 49)
      printf("%d: %lx\n", k, sum);
  }
  char *word = NULL;
  int number = 0;
  int count = sscanf("  allocated 5", "%ms %d", &word, &number);
  printf("%d %s %d\n", count, word, number);
  free(word);
  return 0;
}
