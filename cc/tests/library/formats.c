// What uses `printf` has of unset bytes: each argument that is printed, each byte of a text that is printed, and no other.
#include <stdio.h>
#include <stdlib.h>
#include <string.h>

struct part {
  char c;
  int n;
};

int main(void) {
  char out[64], four[4];
  memcpy(four, "abcd", 4);
  printf("%.4s|%.*s|%-6.2s|\n", four, 3, four, four); // no zero byte
  int upper;
  unsigned char *bytes = (unsigned char *)&upper;
  bytes[0] = 200; // the other three are unset, and dropped
  printf("%5hhd|%hhx\n", upper, upper);
  struct part part, other;
  part.c = 'x';
  part.n = 5;
  other = part; // padding
  printf("%3c|%+d\n", other.c, other.n);
  int unset;
  printf("%.0s%5d|\n", (char *)&unset, 3);
  snprintf(out, 3, "%s", "abcdef");
  printf("%s %d\n", out, snprintf(NULL, 0, "%05d", 42));
#ifdef P1
  char *text = malloc(8); // P1 root
  strncpy(text, "ab", 2);
  printf("[%5s]\n", text); // P1: string in format.c
#endif
#ifdef P2
  long number; // P2 root
  ((char *)&number)[0] = 1;
  printf("[%08lx]\n", number); // P2: branch in format.c
#endif
#ifdef P3
  int width;                   // P3 root
  printf("[%*d]\n", width, 3); // P3: branch in format.c
#endif
#ifdef P4
  snprintf(out, sizeof out, "%c%c", 'a', unset); // carried
  if (out[0] == 'a')
    puts("a");
  if (out[1] == 'a') // P4: branch "out[1]"
    puts("aa");
#endif
#ifdef P5
  out[5] = 0;
  char fresh[8];                             // P5 root
  snprintf(fresh, sizeof fresh, "%s", "ab"); // three bytes are written
  if (fresh[2] == 0)
    puts("ended");
  if (fresh[3] == 0) // P5: branch "fresh[3]"
    puts("zeros");
#endif
#ifdef P6
  unsigned flags; // P6 root
  flags = (flags & 8) | 16;
  printf("%5u\n", flags); // P6: branch in format.c
#endif
#ifdef P7
  char *format = malloc(8);
  memcpy(format, "%5d", 3); // P7: branch in format.c
  printf(format, 3);
#endif
#ifdef P8
  int count;
  signed char *byte = (signed char *)&count;
  printf("ab%hhn\n", byte);
  if (byte[0] == 2)
    puts("2");
  if (count == 2) // P8: branch "count == 2"
    puts("more than a byte");
#endif
#ifdef P9
  printf("%c%5d\n", unset, 3); // P9: output in output.c
#endif
  return 0;
}
