// Numbers are read from text; a line that the input doesn't have leaves its buffer as it was.
// calls: is_digit < number_of < total_of < main
#include <stdio.h>
#include <stdlib.h>
#include <string.h>

static int is_digit(char c) {
  return c >= '0' && c <= '9'; // used
}

static int number_of(const char *line) {
  int number = 0;
  while (is_digit(*line))
    number = number * 10 + (*line++ - '0');
  return number;
}

static int next_line(const char **text, char *line) {
  const char *end = strchr(*text, '\n');
  if (end == NULL)
    return 0;
  memcpy(line, *text, end - *text + 1);
  *text = end + 1;
  return 1;
}

static int total_of(const char *text, int lines) {
  int total = 0;
  for (int i = 0; i < lines; i++) {
    char *line = malloc(16);
    next_line(&text, line);
    total += number_of(line);
    free(line);
  }
  return total;
}

int main(void) {
  printf("%d\n", total_of("12\n30\n", 3));
  return 0;
}
