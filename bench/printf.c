/* Tables by printf, with the directives alone that msan knows: %d %u %x %c %s %ld %lu %lx %%. Columns are padded by hand.
   bench/printf.sh compares what msan and LLVM's interpreter print of it. */
#include <stdio.h>
#include <stdlib.h>
#include <string.h>

static int printed; /* bytes, as printf counts them */

static const char *const names[] = {"alpha", "beta", "gamma", "delta", "", "epsilon with a %d", "zeta"};

struct item {
  const char *name;
  int count;
  unsigned colour;
  long price;
};

static int digits(unsigned long n, unsigned base) {
  int k = 1;
  while (n >= base) {
    n /= base;
    k++;
  }
  return k;
}

static void blanks(int n) {
  while (n-- > 0)
    printed += printf(" ");
}

static void number(int n, int width) {
  unsigned long size = n < 0 ? -(unsigned long)n : (unsigned long)n;
  blanks(width - digits(size, 10) - (n < 0));
  printed += printf("%d", n);
}

static void rule(char c, int n) {
  for (int k = 0; k < n; k++)
    printed += printf("%c", c);
  printed += printf("\n");
}

static void title(const char *text) {
  printed += printf("\n%s\n", text);
  rule('=', (int)strlen(text));
}

static void products(int n) {
  title("Products");
  for (int i = 1; i <= n; i++) {
    for (int k = 1; k <= n; k++)
      number(i * k, 5);
    printed += printf("\n");
  }
}

static void powers(void) {
  title("Powers of two, less one");
  for (int k = 1; k <= 64; k += 7) {
    unsigned long n = k == 64 ? ~0ul : (1ul << k) - 1;
    blanks(20 - digits(n, 10));
    printed += printf("%lu  %lx  %u %x\n", n, n, (unsigned)n, (unsigned)n);
  }
}

static void signs(void) {
  int small[] = {0, 1, -1, 9, -10, 2147483647, -2147483647 - 1};
  long large[] = {0, 1, -1, 9223372036854775807l, -9223372036854775807l - 1, 10000000000, -99999999999};
  title("Numbers with their signs");
  for (int k = 0; k < 7; k++) {
    printed += printf("%d %u %x | %ld %lu %lx\n", small[k], (unsigned)small[k], (unsigned)small[k], large[k],
                      (unsigned long)large[k], (unsigned long)large[k]);
  }
}

static void letters(void) {
  title("Letters");
  for (int c = 32; c < 127; c++) {
    printed += printf("%c %d 0x%x", c, c, c);
    if ((c - 31) % 8)
      printed += printf("%s", "   ");
    else
      printed += printf("\n");
  }
  printed += printf("\nwords above a byte: %c%c%c\n", 256 + 'a', 65536 + 'b', -256 + 'c');
}

static int tallies(int most) {
  char *tally = malloc(most + 1);
  int sum = 0;
  if (!tally)
    return 0;
  memset(tally, 0, most + 1);
  title("How many numbers divide each");
  for (int i = 1; i <= most; i++) {
    for (int k = i; k <= most; k += i)
      tally[k]++;
    sum += tally[i];
    number(tally[i], 4);
    if (i % 15 == 0)
      printed += printf("\n");
  }
  free(tally);
  printed += printf("\n%d for %d, that is %d%% of each\n", sum, most, 100 * sum / most);
  return sum;
}

static void words(void) {
  int count = sizeof names / sizeof names[0];
  title("Words");
  for (int k = 0; k < count; k++) {
    number(k, 2);
    printed += printf(": [%s] of %lu bytes", names[k], strlen(names[k]));
    for (const char *at = names[k]; *at; at += 2) {
      printed += printf(" <%s>", at);
      if (!at[1])
        break;
    }
    printed += printf("\n");
  }
  printed += printf("%s%s%s%%%s%%%%%d\n", names[0], names[4], names[1], names[2], count);
}

static long stock(void) {
  struct item items[] = {{"nuts", 1200, 0x805020u, 3}, {"bolts", -4, 0xffffffu, 12}, {"wheels", 7, 0, 123456789012}};
  long sum = 0;
  title("Stock");
  for (int k = 0; k < 3; k++) {
    struct item *it = &items[k];
    printed += printf("%s", it->name);
    blanks(10 - (int)strlen(it->name));
    number(it->count, 8);
    printed += printf("  #%x  %ld each  %ld\n", it->colour, it->price, it->count * it->price);
    sum += it->count * it->price;
  }
  rule('-', 40);
  printed += printf("sum %ld, %lx\n", sum, (unsigned long)sum);
  return sum;
}

static void triangle(int rows) {
  int row[32] = {1};
  title("Pascal's triangle");
  for (int n = 0; n < rows; n++) {
    blanks(3 * (rows - n));
    for (int k = 0; k <= n; k++)
      number(row[k], 6);
    printed += printf("\n");
    for (int k = n + 1; k > 0; k--)
      row[k] += row[k - 1];
  }
}

static void formats(void) {
  char made[16];
  title("Formats that are made");
  memset(made, 0, sizeof made);
  for (int k = 0; k < 6; k++) {
    made[2 * k] = '%';
    made[2 * k + 1] = "dxucdx"[k];
    printed += printf(made, 65 + k, 66, 67, 68, 69, 255);
    printed += printf("\n");
  }
  printed += printf("%d%d%d%d%d%d%d%d%d%d%d%d\n", 1, 2, 3, 4, 5, 6, 7, 8, 9, 10, 11, 12);
  printed += printf("100%%\n");
  printed += printf("");
}

static void bits(unsigned word) {
  title("Bits of a word");
  printed += printf("%x:", word);
  for (int k = 31; k >= 0; k--) {
    if (k % 8 == 7)
      printed += printf(" ");
    printed += printf("%u", word >> k & 1);
  }
  printed += printf("\n");
}

static void divisors(int most) {
  title("Divisors");
  for (int n = 1; n <= most; n++) {
    number(n, 4);
    printed += printf(" |");
    for (int k = 1; k <= n; k++)
      if (n % k == 0)
        printed += printf(" %d", k);
    printed += printf("\n");
  }
}

int main(void) {
  products(12);
  powers();
  signs();
  letters();
  int count = tallies(300);
  words();
  long sum = stock();
  triangle(12);
  bits(0x8badf00du);
  divisors(30);
  formats();
  printed += printf("\n%d tallies, %ld, %d bytes before this line\n", count, sum, printed);
  return printed % 256;
}
