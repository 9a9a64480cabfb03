#include "qrencode.h"
#include <stdio.h>
#include <stdlib.h>

static void show(QRcode *q) {
  if (!q) {
    puts("none");
    return;
  }
  printf("version %d, width %d\n", q->version, q->width);
  for (int y = 0; y < q->width; y++) {
    for (int x = 0; x < q->width; x++)
      putchar(q->data[y * q->width + x] & 1 ? '#' : ' ');
    putchar('\n');
  }
  QRcode_free(q);
}

int main(void) {
  show(QRcode_encodeString("HELLO WORLD 123", 1, QR_ECLEVEL_L, QR_MODE_8, 1));
  show(QRcode_encodeStringMQR("12345", 2, QR_ECLEVEL_L, QR_MODE_8, 1));
  return 0;
}
