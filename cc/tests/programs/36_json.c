// A JSON reader and printer: values as a union with a kind, indentation, escapes.
// input: {"name":"J\\u0041\\n","list":[1,-2,[],{}],"ok":true,"none":null,"deep":{"a":{"b":[false]}}}\n
#include <ctype.h>
#include <stdio.h>
#include <stdlib.h>
#include <string.h>

enum kind { NUL, BOOL, NUMBER, STRING, ARRAY, OBJECT };
struct value {
  enum kind kind;
  union {
    int truth;
    long number;
    char *string;
    struct {
      struct pair *pairs;
      int count;
    } many;
  } u;
};
struct pair {
  char *key;
  struct value value;
};
static char text[400];
static const char *at = text;

static void space(void) {
  while (isspace((unsigned char)*at))
    at++;
}
static int accept(char c) {
  space();
  if (*at != c)
    return 0;
  at++;
  return 1;
}
static char *string(void) {
  char *s = malloc(strlen(at) + 1), *to = s;
  for (at++; *at && *at != '"'; at++) {
    if (*at != '\\') {
      *to++ = *at;
      continue;
    }
    switch (*++at) {
    case 'n': *to++ = '\n'; break;
    case 't': *to++ = '\t'; break;
    case 'u': {
      unsigned code = 0;
      sscanf(at + 1, "%4x", &code);
      *to++ = (char)code;
      at += 4;
      break;
    }
    default: *to++ = *at;
    }
  }
  at++;
  *to = 0;
  return s;
}
static struct value value(void) {
  struct value v = {NUL, {0}};
  space();
  if (*at == '{' || *at == '[') {
    char close = *at == '{' ? '}' : ']';
    v.kind = *at++ == '{' ? OBJECT : ARRAY;
    v.u.many.pairs = NULL;
    v.u.many.count = 0;
    while (!accept(close)) {
      v.u.many.pairs = realloc(v.u.many.pairs, (v.u.many.count + 1) * sizeof(struct pair)); // P1 root
      struct pair *p = &v.u.many.pairs[v.u.many.count++];
      if (v.kind == OBJECT) {
        space();
        p->key = string();
        accept(':');
      }
#ifndef P1
      else
        p->key = NULL;
#endif
      p->value = value();
      accept(',');
    }
  } else if (*at == '"') {
    v.kind = STRING;
    v.u.string = string();
  } else if (isdigit((unsigned char)*at) || *at == '-') {
    char *end;
    v.kind = NUMBER;
    v.u.number = strtol(at, &end, 10);
    at = end;
  } else {
    v.kind = strncmp(at, "null", 4) == 0 ? NUL : BOOL;
    v.u.truth = *at == 't';
    while (isalpha((unsigned char)*at))
      at++;
  }
  return v;
}
static void print_string(const char *s) {
  putchar('"');
  for (; *s; s++)
    if (*s == '\n')
      printf("\\n");
    else if ((unsigned char)*s < 32 || *s == '"')
      printf("\\u%04x", *s);
    else
      putchar(*s);
  putchar('"');
}
static void print(struct value v, int indent) {
  switch (v.kind) {
  case NUL: printf("null"); break;
  case BOOL: printf(v.u.truth ? "true" : "false"); break;
  case NUMBER: printf("%ld", v.u.number); break;
  case STRING: print_string(v.u.string); break;
  default:
    putchar(v.kind == OBJECT ? '{' : '[');
    for (int k = 0; k < v.u.many.count; k++) {
      const struct pair *p = &v.u.many.pairs[k];
      printf("%s\n%*s", k ? "," : "", indent + 2, "");
      if (p->key) { // P1: branch "p->key"
        print_string(p->key);
        printf(": ");
      }
      print(p->value, indent + 2);
    }
    if (v.u.many.count)
      printf("\n%*s", indent, "");
    putchar(v.kind == OBJECT ? '}' : ']');
  }
}

int main(void) {
  text[fread(text, 1, sizeof text - 1, stdin)] = 0;
  print(value(), 0);
  printf("\n%d left\n", (int)strlen(at));
  return 0;
}
