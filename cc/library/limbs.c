#include "limbs.h"

void cc_double_times(struct limbs *n, int times) {
  uint64_t carry = 0;
  for (int k = n->end; k-- > n->first;) {
    uint64_t product = ((uint64_t)n->limb[k] << times) + carry;
    n->limb[k] = product % BILLION;
    carry = product / BILLION;
  }
  if (carry)
    n->limb[--n->first] = (uint32_t)carry;
  while (n->end > n->first && !n->limb[n->end - 1])
    n->end--;
}

void cc_halve_times(struct limbs *n, int times) {
  uint32_t carry = 0, unit = BILLION >> times;
  for (int k = n->first; k < n->end; k++) {
    uint32_t rest = n->limb[k] & ((1u << times) - 1);
    n->limb[k] = (n->limb[k] >> times) + carry;
    carry = rest * unit;
  }
  if (carry)
    n->limb[n->end++] = carry;
  if (n->first < n->end && !n->limb[n->first])
    n->first++;
}
