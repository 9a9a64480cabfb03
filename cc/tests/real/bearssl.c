#include "bearssl.h"
#include <stdio.h>
#include <string.h>

static void show(const char *label, const void *from, int size) {
  printf("%s ", label);
  for (int k = 0; k < size; k++)
    printf("%02x", ((const unsigned char *)from)[k]);
  printf("\n");
}

int main(void) {
  unsigned char key[32], data[100], out[64], tag[16], iv[12] = {1, 2, 3};
  for (int k = 0; k < 32; k++)
    key[k] = 5 * k;
  for (int k = 0; k < 100; k++)
    data[k] = k;
  const br_hash_class *const hashes[] = {&br_md5_vtable, &br_sha1_vtable, &br_sha256_vtable, &br_sha512_vtable};
  for (int k = 0; k < 4; k++) {
    br_hash_compat_context c;
    hashes[k]->init(&c.vtable);
    hashes[k]->update(&c.vtable, data, sizeof data);
    hashes[k]->out(&c.vtable, out);
    show("hash", out, hashes[k]->desc >> BR_HASHDESC_OUT_OFF & BR_HASHDESC_OUT_MASK);
  }
  br_hmac_key_context k;
  br_hmac_context h;
  br_hmac_key_init(&k, &br_sha256_vtable, key, sizeof key);
  br_hmac_init(&h, &k, 0);
  br_hmac_update(&h, data, sizeof data);
  printf("%zu ", br_hmac_out(&h, out));
  show("hmac", out, 32);
  br_aes_ct_ctr_keys a;
  br_aes_ct_ctr_init(&a, key, 16);
  br_aes_ct_ctr_run(&a, iv, 1, data, sizeof data);
  show("aes", data, 32);
  br_poly1305_ctmul_run(key, iv, data, sizeof data, "aad", 3, tag, br_chacha20_ct_run, 1);
  show("poly1305", tag, 16);
  br_hmac_drbg_context d;
  br_hmac_drbg_init(&d, &br_sha256_vtable, "seed", 4);
  br_hmac_drbg_generate(&d, out, 40);
  show("drbg", out, 40);
  return 0;
}
