// printf and its family beyond the directives that msan has; a use within them has a place of its own.
#include <stdarg.h>
#include <stdio.h>
#include <string.h>

static int logged(const char *format, ...) {
  char line[200];
  va_list list;
  va_start(list, format);
  int n = vsnprintf(line, sizeof line, format, list);
  va_end(list);
  puts(line);
  return n;
}

int main(void) {
  char text[40];
  printf("%5d|%-5d|%05d|%+d|% d|%.3d|%8.3d|%-8.3d|\n", 42, 42, 42, 42, 42, 7, 7, 7);
  printf("%x|%X|%#x|%08X|%o|%#o|%u|\n", 48879, 48879, 255, 48879, 8, 8, 4000000000u);
  printf("%ld|%lld|%lu|%llx|%zu|%zd|%jd|%td|%hhd|%hd|\n", -5L, 1LL << 40, ~0UL, ~0ULL, sizeof text, (ssize_t)-3, (long)9, (long)-9, 300, 70000);
  printf("%s|%10s|%-10s|%.2s|%*s|%-*s|%.*s|%c|%5c|%-3c|%%|\n", "abc", "abc", "abc", "abc", 5, "ab", 5, "ab", 1, "xyz", 'c', 'c', 'c');
  printf("%p|%10p|%-6d|%d\n", (void *)0, (void *)0, -1, printf("%s", ""));
  int n = snprintf(text, 6, "%d-%s", 1234, "long");
  printf("%s %d\n", text, n);
  n = sprintf(text, "%04x:%3u", 10, 7);
  printf("%s %d %zu\n", text, n, strlen(text));
  fprintf(stdout, "%3d%%|%s\n", 50, "stdout");
  fprintf(stderr, "%s\n", "stderr");
  printf("%d\n", logged("%s=%-4d|%c%c", "key", 12, 'o', 'k'));
  int count = 0;
  printf("four%n\n", &count);
  printf("%d\n", count);
#ifdef P1
  char unset[8]; // P1 root
  unset[0] = 'u';
  unset[7] = 0;
  if (strlen(unset) == 1) // P1: string "strlen"
    puts("one");
#endif
#ifdef P2
  int width; // P2 root
  printf("%*d\n", width, 7); // P2: branch in format.c
#endif
  return 0;
}
