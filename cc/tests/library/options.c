// getopt, getopt_long and getopt_long_only on 21 command lines with 5 lists of options.
#define _GNU_SOURCE
#include <stdio.h>
#include <getopt.h>
#include <string.h>
#include <stdlib.h>
int main(int argc, char **argv) {
  static const char *lines[] = {"p -a -b x y -c",
                                "p x -a y -bfoo z -- -c w",
                                "p -abfoo -c",
                                "p --alpha --beta=3 x --gam",
                                "p --be 4 --alp -- x",
                                "p -z -a",
                                "p --zeta x",
                                "p -b",
                                "p --beta",
                                "p --alpha=3",
                                "p - -a x -",
                                "p -d -dx -d x",
                                "p --delta --delta=5 --delta 5 y -a",
                                "p -al -beta",
                                "p x y z -a -b q r -c",
                                "p --b 3",
                                "p",
                                "p --",
                                "p -- -a",
                                "p -a -- -b",
                                "p --x=3 --flag"};
  static int flag;
  static const struct option lo[] = {{"alpha", 0, 0, 'a'}, {"beta", 1, 0, 'b'},    {"gamma", 0, 0, 'c'}, {"delta", 2, 0, 'd'},
                                     {"betas", 1, 0, 'b'}, {"flag", 0, &flag, 42}, {0, 0, 0, 0}};
  static const char *lists[] = {"ab:cd::", "+ab:cd::", "-ab:cd::", ":ab:cd::", "abcd"};
  opterr = 0;
  for (unsigned l = 0; l < sizeof lists / sizeof *lists; l++)
    for (int mode = 0; mode < 3; mode++)
      for (unsigned k = 0; k < sizeof lines / sizeof *lines; k++) {
        char buf[100], *v[20];
        int n = 0;
        strcpy(buf, lines[k]);
        for (char *t = strtok(buf, " "); t; t = strtok(NULL, " "))
          v[n++] = t;
        v[n] = NULL;
        optind = 0;
        int c, ix = -1;
        printf("%u %d %u:", l, mode, k);
        while ((c = mode == 0   ? getopt(n, v, lists[l])
                    : mode == 1 ? getopt_long(n, v, lists[l], lo, &ix)
                                : getopt_long_only(n, v, lists[l], lo, &ix)) != -1) {
          printf(" %c(%d)%s[%d]", c < 32 ? '0' + c : c, optind, optarg ? optarg : "-", ix);
          if (c == '?' || c == ':')
            printf("o%d", optopt);
        }
        printf(" |%d", optind);
        for (int i = 0; i < n; i++)
          printf(" %s", v[i]);
        printf(" f%d\n", flag);
        flag = 0;
      }
  return 0;
}
