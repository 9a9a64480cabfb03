// getopt and getopt_long, as glibc has them: words that are no options are moved behind the options, but for a list that begins with `+` or
// `-`.
#define _GNU_SOURCE
#include "library.h"

#include <getopt.h>
#include <string.h>

weak char *optarg;
weak int optind = 1, opterr = 1, optopt = '?';

static char *rest;      // of a word of several options
static int first, last; // the words passed over that are no options: [first, last)

static int is_option(const char *word) { return word[0] == '-' && word[1]; }

static void reverse(char **words, int from, int to) {
  for (to--; from < to; from++, to--) {
    char *word = words[from];
    words[from] = words[to];
    words[to] = word;
  }
}

// Options that were read move in front of the words passed over.
static void exchange(char **words) {
  reverse(words, first, last);
  reverse(words, last, optind);
  reverse(words, first, optind);
  first += optind - last;
  last = optind;
}

static void complain(char **words, const char *list, const char *format, const char *name, int length) {
  if (opterr && *list != ':')
    fprintf(stderr, format, words[0], length, name);
}

// Passes over words that are no options. Returns whether there is one.
static int find_option(int count, char **words, char order) {
  if (last > optind)
    last = optind;
  if (first > optind)
    first = optind;
  if (order != '+' && order != '-') {
    if (first != last && last != optind)
      exchange(words);
    else if (last != optind)
      first = optind;
    while (optind < count && !is_option(words[optind]))
      optind++;
    last = optind;
  }
  if (optind < count && strcmp(words[optind], "--") == 0) {
    optind++;
    if (first != last && last != optind)
      exchange(words);
    else if (first == last)
      first = optind;
    last = count;
    optind = count;
  }
  if (optind >= count) {
    if (first != last)
      optind = first;
    return 0;
  }
  return 1;
}

static int missing_argument(char **words, const char *list, int option) {
  char name = (char)option;
  complain(words, list, "%s: option requires an argument -- '%.*s'\n", &name, 1);
  optopt = option;
  return *list == ':' ? ':' : '?';
}

static int short_option(int count, char **words, const char *list) {
  char option = *rest++;
  const char *found = option == ':' || option == ';' ? NULL : strchr(list, option);
  if (!*rest)
    optind++;
  if (!found) {
    complain(words, list, "%s: invalid option -- '%.*s'\n", &option, 1);
    optopt = option;
    return '?';
  }
  if (found[1] != ':')
    return option;
  int has_rest = *rest != 0;
  optarg = has_rest ? rest : NULL;
  if (has_rest)
    optind++;
  else if (found[2] != ':') {
    if (optind >= count) {
      rest = NULL;
      return missing_argument(words, list, (unsigned char)option);
    }
    optarg = words[optind++];
  }
  rest = NULL;
  return option;
}

static int is_same(const struct option *one, const struct option *other) {
  return one->has_arg == other->has_arg && one->flag == other->flag && one->val == other->val;
}

// The option of a name, or of an unambiguous beginning; -1 none, -2 several.
static int find_long(const char *name, size_t length, const struct option *options, int is_only_long) {
  int found = -1;
  for (int k = 0; options[k].name; k++)
    if (strncmp(options[k].name, name, length) == 0) {
      if (strlen(options[k].name) == length)
        return k;
      if (found == -1)
        found = k;
      else if (found == -2 || is_only_long || !is_same(&options[found], &options[k]))
        found = -2;
    }
  return found;
}

static int long_option(int count, char **words, const char *list, const struct option *options, int *index, char *name, int is_only_long) {
  size_t length = strcspn(name, "=");
  int k = find_long(name, length, options, is_only_long);
  optind++;
  rest = NULL;
  optopt = 0;
  if (k < 0) {
    complain(words, list, k == -2 ? "%s: option '--%.*s' is ambiguous\n" : "%s: unrecognized option '--%.*s'\n", name, length);
    return '?';
  }
  const struct option *option = &options[k];
  optopt = option->flag ? 0 : option->val;
  if (name[length] && option->has_arg == no_argument) {
    complain(words, list, "%s: option '--%.*s' doesn't allow an argument\n", name, length);
    return '?';
  }
  optarg = name[length] ? name + length + 1 : NULL;
  if (!optarg && option->has_arg == required_argument) {
    if (optind >= count) {
      complain(words, list, "%s: option '--%.*s' requires an argument\n", name, length);
      return *list == ':' ? ':' : '?';
    }
    optarg = words[optind++];
  }
  optopt = '?';
  if (index)
    *index = k;
  if (!option->flag)
    return option->val;
  *option->flag = option->val;
  return 0;
}

// Whether a word with one `-` is a long option for getopt_long_only, and not short ones.
static int is_long(const char *word, const char *list, const struct option *options) {
  if (!strchr(list, word[1]))
    return 1;
  return word[2] && find_long(word + 1, strcspn(word + 1, "="), options, 1) != -1;
}

static int next_option(int count, char **words, const char *list, const struct option *options, int *index, int is_only_long) {
  char order = *list;
  if (order == '+' || order == '-')
    list++;
  if (optind == 0) {
    optind = 1;
    rest = NULL;
    first = last = 1;
  }
  optarg = NULL;
  if (!rest || !*rest) {
    if (first == 0)
      first = last = optind;
    if (!find_option(count, words, order))
      return -1;
    char *word = words[optind];
    if (!is_option(word)) {
      if (order == '+')
        return -1;
      optarg = word;
      optind++;
      return 1;
    }
    if (options && word[1] == '-')
      return long_option(count, words, list, options, index, word + 2, is_only_long);
    if (options && is_only_long && is_long(word, list, options))
      return long_option(count, words, list, options, index, word + 1, is_only_long);
    rest = word + 1;
  }
  return short_option(count, words, list);
}

weak int getopt(int count, char *const *words, const char *list) { return next_option(count, (char **)words, list, NULL, NULL, 0); }
weak int __posix_getopt(int count, char *const *words, const char *list) { return next_option(count, (char **)words, list, NULL, NULL, 0); }
weak int getopt_long(int count, char *const *words, const char *list, const struct option *options, int *index) {
  return next_option(count, (char **)words, list, options, index, 0);
}
weak int getopt_long_only(int count, char *const *words, const char *list, const struct option *options, int *index) {
  return next_option(count, (char **)words, list, options, index, 1);
}
