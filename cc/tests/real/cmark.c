#include "cmark.h"
#include <stdio.h>
#include <stdlib.h>
#include <string.h>

int main(void) {
  const char *text = "Title\n=====\n\nA *b* **c** `d` [e](/f \"g\") ![h](i)\nline\\\nbreak &copy; <em>raw</em>\n\n1. one\n2. two\n   - deep\n\n> "
                     "q\n> [r]\n\n    code\n\n[r]: /s\n";
  char *html = cmark_markdown_to_html(text, strlen(text), CMARK_OPT_UNSAFE);
  puts(html);
  free(html);
  cmark_node *document = cmark_parse_document(text, strlen(text), CMARK_OPT_SMART);
  cmark_iter *it = cmark_iter_new(document);
  int count = 0;
  for (cmark_event_type e; (e = cmark_iter_next(it)) != CMARK_EVENT_DONE;)
    if (e == CMARK_EVENT_ENTER) {
      count++;
      printf("%s ", cmark_node_get_type_string(cmark_iter_get_node(it)));
    }
  printf("%d\n", count);
  cmark_iter_free(it);
  cmark_node_free(document);
  return 0;
}
