#include "gsm.h"
#include <stdio.h>

int main(void) {
  gsm encoder = gsm_create(), decoder = gsm_create();
  gsm_signal in[160], out[160];
  gsm_frame frame;
  unsigned s = 1;
  long error = 0;
  for (int turn = 0; turn < 3; turn++) {
    for (int k = 0; k < 160; k++) {
      s = s * 1103515245u + 12345u;
      in[k] = (k + turn * 160) % 40 * 600 - 12000 + (int)(s >> 26);
    }
    gsm_encode(encoder, in, frame);
    printf("%d:", gsm_decode(decoder, frame, out));
    for (int k = 0; k < 33; k++)
      printf(" %02x", frame[k]);
    for (int k = 0; k < 160; k++)
      error += in[k] > out[k] ? in[k] - out[k] : out[k] - in[k];
    printf("\n");
  }
  printf("%ld %d %d\n", error, out[10], out[100]);
  gsm_destroy(encoder);
  gsm_destroy(decoder);
  return 0;
}
