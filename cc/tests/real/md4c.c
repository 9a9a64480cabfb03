#include "md4c-html.h"
#include <stdio.h>
#include <string.h>

static void put(const MD_CHAR *text, MD_SIZE size, void *data) {
  *(long *)data += size;
  fwrite(text, 1, size, stdout);
}

int main(void) {
  const char *text = "# A *title*\n\nText with **strong** `code`, [a link](http://x.org \"t\") and <http://auto.link>.\n\n* one\n* two\n  1. deep\n\n"
                     "> quoted\n\n```c\nint x;\n```\n\n| a | b |\n|---|:-:|\n| 1 | &amp;2 |\n\n---\nlast \\* line\n";
  long bytes = 0;
  int status = md_html(text, (MD_SIZE)strlen(text), put, &bytes, MD_FLAG_TABLES | MD_FLAG_STRIKETHROUGH, 0);
  printf("%d %ld\n", status, bytes);
  return 0;
}
