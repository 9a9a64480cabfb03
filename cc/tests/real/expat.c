#include "expat.h"
#include <stdio.h>
#include <string.h>

static int depth;
static void start(void *data, const XML_Char *name, const XML_Char **attributes) {
  ++*(int *)data;
  printf("%*s<%s", 2 * depth++, "", name);
  for (; *attributes; attributes += 2)
    printf(" %s='%s'", attributes[0], attributes[1]);
  printf(">\n");
}
static void end(void *data, const XML_Char *name) {
  (void)data;
  printf("%*s</%s>\n", 2 * --depth, "", name);
}
static void text(void *data, const XML_Char *s, int length) {
  (void)data;
  int blank = 1;
  for (int k = 0; k < length; k++)
    blank &= s[k] == ' ' || s[k] == '\n';
  if (!blank)
    printf("%*s%.*s\n", 2 * depth, "", length, s);
}
static void parse(const char *document, int piece) {
  int elements = 0;
  XML_Parser p = XML_ParserCreateNS("UTF-8", '|');
  XML_SetUserData(p, &elements);
  XML_SetElementHandler(p, start, end);
  XML_SetCharacterDataHandler(p, text);
  XML_SetHashSalt(p, 12345);
  int length = (int)strlen(document);
  for (int k = 0; k < length; k += piece) {
    int n = length - k < piece ? length - k : piece;
    if (XML_Parse(p, document + k, n, k + n == length) == XML_STATUS_ERROR) {
      printf("line %lu, column %lu: %s\n", XML_GetCurrentLineNumber(p), XML_GetCurrentColumnNumber(p), XML_ErrorString(XML_GetErrorCode(p)));
      break;
    }
  }
  printf("%d elements\n", elements);
  XML_ParserFree(p);
  depth = 0;
}

int main(void) {
  const char *good = "<?xml version='1.0'?>\n<!-- a comment -->\n<a xmlns='urn:a' xmlns:x='urn:x' k=\"v &lt; &#65;\"><x:b/>text &amp; more"
                     "<c><![CDATA[ <raw> ]]></c>\xc3\xa9</a>\n";
  parse(good, 1000);
  parse(good, 7);
  parse("<a><b></a>", 3);
  return 0;
}
