#include "tommath.h"
#include <stdio.h>
#include <stdlib.h>

static void show(const char *label, const mp_int *n) {
  char text[400];
  size_t written;
  mp_to_radix(n, text, sizeof text, &written, 10);
  printf("%s %s\n", label, text);
}

int main(void) {
  mp_int a, b, c, d, e;
  if (mp_init_multi(&a, &b, &c, &d, &e, NULL) != MP_OKAY)
    return 1;
  mp_set_u32(&a, 1);
  for (int k = 2; k <= 60; k++)
    mp_mul_d(&a, k, &a);
  show("60!", &a);
  mp_read_radix(&b, "123456789012345678901234567890", 10);
  mp_div(&a, &b, &c, &d);
  show("quotient", &c);
  show("remainder", &d);
  mp_set_u32(&e, 65537);
  mp_exptmod(&d, &e, &b, &c);
  show("power", &c);
  mp_gcd(&a, &b, &c);
  show("gcd", &c);
  mp_set_u32(&e, 1000003);
  printf("%d", mp_invmod(&a, &e, &c) == MP_OKAY);
  printf(" %d\n", mp_invmod(&b, &e, &c) == MP_OKAY);
  show("inverse", &c);
  mp_bool prime;
  mp_read_radix(&b, "170141183460469231731687303715884105727", 10);
  mp_prime_fermat(&b, &e, &prime);
  printf("prime %d, bits %d\n", prime, mp_count_bits(&b));
  mp_sqrt(&a, &c);
  show("root", &c);
  mp_clear_multi(&a, &b, &c, &d, &e, NULL);
  return 0;
}
