// Reads times such as "90s", "5m" and "2h": without a unit nothing sets `unit`.
#include <stdio.h>

struct time {
  int number;
  int unit; // in seconds
};

static void parse(const char *text, struct time *time) {
  time->number = 0;
  for (; *text >= '0' && *text <= '9'; text++)
    time->number = time->number * 10 + (*text - '0');
  switch (*text) {
  case 's':
    time->unit = 1;
    break;
  case 'm':
    time->unit = 60;
    break;
  case 'h':
    time->unit = 3600;
    break;
  }
}

static int seconds(const char *text) {
  struct time time;
  parse(text, &time);
  return time.number * time.unit;
}

int main(void) {
  int whole = seconds("5m") + seconds("90");
  printf("%d\n", whole);
  return 0;
}
