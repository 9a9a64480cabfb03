// A ring buffer of bytes with volatile indices, as drivers have it, and a framing over it.
#include <stdint.h>
#include <stdio.h>
#include <string.h>

#define SIZE 16
struct ring {
  volatile uint8_t head, tail;
  uint8_t data[SIZE];
};

static int put(struct ring *r, uint8_t byte) {
  uint8_t next = (r->head + 1) & (SIZE - 1);
  if (next == r->tail) // P1: branch "next"
    return 0;
  r->data[r->head] = byte;
  r->head = next;
  return 1;
}
static int get(struct ring *r) {
  if (r->head == r->tail)
    return -1;
  int byte = r->data[r->tail];
  r->tail = (r->tail + 1) & (SIZE - 1);
  return byte;
}
static int frame(struct ring *r, const char *text) {
  uint8_t sum = 0;
  int sent = put(r, 0x7e);
  for (; *text; text++) {
    sum += (uint8_t)*text;
    sent += put(r, (uint8_t)*text);
  }
  return sent + put(r, sum) + put(r, 0x7f);
}

int main(void) {
  struct ring r;
#ifdef P1
  r.head = 0;
#else
  memset(&r, 0, sizeof r);
#endif
  const char *texts[] = {"abc", "ring", "overflowing text", "x"};
  for (int i = 0; i < 4; i++) {
    printf("%d put:", frame(&r, texts[i]));
    for (int b; (b = get(&r)) >= 0;)
      printf(b >= 32 && b < 127 ? " %c" : " %02x", b);
    printf(" (%u %u)\n", r.head, r.tail);
  }
  return 0;
}
