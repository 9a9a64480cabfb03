// Numbers in limbs of nine decimal digits, some in front of the point and some behind, that can be doubled and halved exactly: how a
// `double` becomes a text, and a text a `double`.
#ifndef CC_LIMBS_H
#define CC_LIMBS_H

#include <stdint.h>

enum { BILLION = 1000000000, WHOLE = 40, FRACTION = 256 };

struct limbs {
  uint32_t limb[WHOLE + FRACTION];
  int first, end; // those that aren't 0 stand from `first` to `end`; from WHOLE on they are behind the point
};

// At most 29 times.
void cc_double_times(struct limbs *n, int times);
// At most nine times, since a billion can be halved so often.
void cc_halve_times(struct limbs *n, int times);

#endif
