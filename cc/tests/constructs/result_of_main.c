// The result of main, which is a use.
// args: word
#include <stdio.h>

int main(int argc, char **argv) {
  int status; // P1 root
#ifndef P1
  status = 3;
#endif
  printf("%s\n", argv[1]);
  return argc > 3 ? 1 : status; // P1: exit "return"
}
