#include <md4.h>
#include <md5.h>
#include <rmd160.h>
#include <sha1.h>
#include <sha2.h>
#include <stdio.h>
#include <string.h>

static void show(const char *name, const unsigned char *digest, int size) {
  printf("%s ", name);
  for (int k = 0; k < size; k++)
    printf("%02x", digest[k]);
  printf("\n");
}
#define HASH(name, type, init, update, final, size)                                                                                                  \
  {                                                                                                                                                  \
    type context;                                                                                                                                    \
    unsigned char digest[size];                                                                                                                      \
    init(&context);                                                                                                                                  \
    for (int k = 0; k < 5; k++)                                                                                                                      \
      update(&context, (const unsigned char *)text + 40 * k, 40);                                                                                    \
    final(digest, &context);                                                                                                                         \
    show(name, digest, size);                                                                                                                        \
  }

int main(void) {
  char text[200];
  for (int k = 0; k < 200; k++)
    text[k] = (char)(k * 11);
  HASH("md4", MD4_CTX, MD4Init, MD4Update, MD4Final, 16)
  HASH("md5", MD5_CTX, MD5Init, MD5Update, MD5Final, 16)
  HASH("rmd160", RMD160_CTX, RMD160Init, RMD160Update, RMD160Final, 20)
  HASH("sha1", SHA1_CTX, SHA1Init, SHA1Update, SHA1Final, 20)
  HASH("sha256", SHA2_CTX, SHA256Init, SHA256Update, SHA256Final, 32)
  HASH("sha512", SHA2_CTX, SHA512Init, SHA512Update, SHA512Final, 64)
  return 0;
}
