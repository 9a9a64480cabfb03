// Calls of the functions of LLVM for which clang 19 has builtins, on words that it doesn't know, since another file may change them.
#include <stdint.h>

int printf(const char *format, ...);

uint64_t words[] = {1,      0,          0x80,       0xff,           0x1234,           0x8000,
                    0xfffb, 0x7fffffff, 0x80000000, 0x123456789abc, 0x8000000000000000, -1};

#define EACH(type, value)                                           \
  for (unsigned k = 0; k + 1 < sizeof words / sizeof *words; k++) { \
    type a = words[k], b = words[k + 1];                            \
    printf("%lx ", (uint64_t)(value));                              \
  }                                                                 \
  printf(#type ": " #value "\n");

// No count of zeros of 0: at -O1 clang counts before it asks, and `msan` traps.
#define BITS(width)                                                \
  EACH(uint##width##_t, __builtin_popcountg(a))                    \
  EACH(uint##width##_t, __builtin_clzg((uint##width##_t)(a | 1)))  \
  EACH(uint##width##_t, __builtin_ctzg((uint##width##_t)(a | 64))) \
  EACH(uint##width##_t, __builtin_bitreverse##width(a))            \
  EACH(uint##width##_t, __builtin_rotateleft##width(a, b))         \
  EACH(uint##width##_t, __builtin_rotateright##width(a, b))

#define SIGNS(width)                                         \
  EACH(int##width##_t, __builtin_elementwise_abs(a))         \
  EACH(int##width##_t, __builtin_elementwise_max(a, b))      \
  EACH(int##width##_t, __builtin_elementwise_min(a, b))      \
  EACH(uint##width##_t, __builtin_elementwise_max(a, b))     \
  EACH(uint##width##_t, __builtin_elementwise_min(a, b))     \
  EACH(uint##width##_t, __builtin_elementwise_add_sat(a, b)) \
  EACH(uint##width##_t, __builtin_elementwise_sub_sat(a, b)) \
  EACH(int##width##_t, __builtin_elementwise_add_sat(a, b))  \
  EACH(int##width##_t, __builtin_elementwise_sub_sat(a, b))

static uint64_t size_of(void *object) { return __builtin_object_size(object, 0); }

int main(void) {
  BITS(8)
  BITS(16)
  BITS(32)
  BITS(64)
  EACH(uint16_t, __builtin_bswap16(a))
  EACH(uint32_t, __builtin_bswap32(a))
  EACH(uint64_t, __builtin_bswap64(a))
  SIGNS(32)
  SIGNS(64)
  EACH(uint64_t, __builtin_expect(a > b, 1))
  __builtin_assume(words[0] == 1);
  printf("%lx\n", size_of(words + words[0]));
  if (words[1])
    __builtin_trap();
  return 7;
}
