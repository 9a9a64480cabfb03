// Reading standard input by characters, lines, words and blocks, with characters given back; writing; streams over memory.
#define _GNU_SOURCE
#include <errno.h>
#include <stdio.h>
#include <stdlib.h>
#include <string.h>

static void given_back(void) {
  int c = getchar();
  printf("%c", c);
  printf("%d", ungetc('Z', stdin));
  printf("%c", getchar());
  printf("%d %d\n", ungetc(EOF, stdin), getc(stdin));
}

static void words_and_lines(void) {
  char text[80], word[10], set[10];
  int number = 0;
  printf("%s", fgets(text, sizeof text, stdin));
  int count = scanf("%d %9s [%5[a-c]]", &number, word, set);
  printf("%d: %d %s %s\n", count, number, word, set);
  char part[5];
  printf("<%s>\n", fgets(part, sizeof part, stdin));
  printf("<%s>\n", fgets(part, 1, stdin));
  size_t size = fread(part, 2, 2, stdin);
  printf("%zu %.4s\n", size, part);
  char *line = NULL;
  size_t room = 0;
  ssize_t length;
  while ((length = getline(&line, &room, stdin)) > 0)
    printf("%zd %zu %s\n", length, room, line);
  free(line);
  printf("%d %d %d %d\n", feof(stdin) != 0, ferror(stdin), fgetc(stdin), getchar());
  printf("%d\n", scanf("%d", &number));
  clearerr(stdin);
  printf("%d\n", feof(stdin));
}

static void writing(void) {
  printf("%d %d\n", fputs("by fputs\n", stdout) > 0, fputc('c', stdout));
  printf("%zu\n", fwrite("blocks\n", 3, 2, stdout));
  putc('\n', stdout);
  fprintf(stderr, "lost %d\n", 5);
  printf("%d %d\n", fputs("", stdout) >= 0, fflush(stdout));
  errno = 0;
  printf("%d %d\n", fopen("/nonexistent/file", "r") == NULL, errno == ENOENT);
  printf("%d %d %d\n", fileno(stdin), fileno(stdout), fileno(stderr));
}

static void memory(void) {
  char *text = NULL, bytes[8], line[20];
  size_t length = 0;
  FILE *stream = open_memstream(&text, &length);
  for (int k = 0; k < 30; k++)
    fprintf(stream, "%d,", k);
  fflush(stream);
  printf("%zu\n", length);
  fputs("end", stream);
  fclose(stream);
  printf("%s %zu\n", text, length);
  stream = fmemopen(text, length, "r");
  int a = 0, b = 0, count = fscanf(stream, "%d,%d", &a, &b);
  printf("%d %d %d %c\n", count, a, b, fgetc(stream));
  printf("%s %d\n", fgets(line, sizeof line, stream), ungetc('!', stream));
  printf("%c\n", getc(stream));
  fclose(stream);
  free(text);
  stream = fmemopen(bytes, sizeof bytes, "w");
  fputs("abc", stream);
  fclose(stream);
  puts(bytes);
}

int main(void) {
  given_back();
  words_and_lines();
  writing();
  memory();
#ifdef P1
  char part[8];
  part[0] = 'a';
  fwrite(part, 1, 2, stdout); // P1: output in output.c
#endif
#ifdef P2
  char text[8]; // P2 root
  text[0] = 'a';
  fputs(text, stderr); // P2: string in output.c
#endif
#ifdef P3
  char *line;
  size_t size;
  line = NULL;
  getline(&line, &size, stdin); // at the end, so nothing of `size` is read
  size_t more;
  line = malloc(4);
  getline(&line, &more, stdin); // P3: branch in input.c
#endif
#ifdef P4
  int number; // P4 root
  int count = sscanf("x", "%d", &number);
  if (count == 1)
    puts("one");
  if (number == 3) // P4: branch "number"
    puts("three");
#endif
#ifdef P5
  char *text = NULL;
  size_t length;
  FILE *stream = open_memstream(&text, &length);
  int unset;
  fwrite(&unset, 1, sizeof unset, stream); // carried
  fclose(stream);
  if (text[2] == 'a') // P5: branch "text[2]"
    puts("a");
#endif
  return 0;
}
