// The weight of a letter is looked up by a place that is never computed for the letter behind the last.
// calls: weight_at < weight_of < main
#include <stdio.h>

static const int weights[4] = {3, 5, 7, 11};

static int weight_at(const int *places, int i) {
  return weights[places[i] & 3]; // used
}

static int weight_of(const char *word, int length) {
  int places[8];
  for (int i = 0; i < length; i++)
    places[i] = word[i] - 'a';
  int sum = 0;
  for (int i = 0; i <= length; i++)
    sum += weight_at(places, i);
  return sum;
}

int main(void) {
  printf("%d\n", weight_of("bad", 3));
  return 0;
}
