#include "http_parser.h"
#include <stdio.h>
#include <string.h>

static int piece(http_parser *p, const char *at, size_t n) {
  ++*(int *)p->data;
  printf("  <%.*s>\n", (int)n, at);
  return 0;
}
static int complete(http_parser *p) {
  printf("  %s, status %d, HTTP %d.%d, keep alive %d\n", http_method_str(p->method), p->status_code, p->http_major, p->http_minor,
         http_should_keep_alive(p));
  return 0;
}
static void parse(enum http_parser_type type, const char *text, size_t step) {
  http_parser p;
  http_parser_settings s;
  int pieces = 0;
  http_parser_init(&p, type);
  http_parser_settings_init(&s);
  s.on_url = s.on_header_field = s.on_header_value = s.on_body = s.on_status = piece;
  s.on_message_complete = complete;
  p.data = &pieces;
  for (size_t k = 0, n; k < strlen(text); k += n) {
    n = strlen(text) - k < step ? strlen(text) - k : step;
    if (http_parser_execute(&p, &s, text + k, n) != n) {
      printf("%s\n", http_errno_name(HTTP_PARSER_ERRNO(&p)));
      break;
    }
  }
  printf("%d pieces\n", pieces);
}

int main(void) {
  parse(HTTP_REQUEST, "GET /a/b?q=1#f HTTP/1.1\r\nHost: x.org\r\nX-Long: value\r\n\r\n", 1000);
  parse(HTTP_REQUEST, "POST /p HTTP/1.1\r\nTransfer-Encoding: chunked\r\n\r\n5\r\nhello\r\n0\r\n\r\n", 9);
  parse(HTTP_RESPONSE, "HTTP/1.0 404 Not Found\r\nContent-Length: 3\r\n\r\nabc", 5);
  parse(HTTP_REQUEST, "BREW / HTTP/1.1\r\n\r\n", 100);
  struct http_parser_url u;
  const char *url = "http://user@host:8080/path?query#end";
  http_parser_url_init(&u);
  printf("%d %d", http_parser_parse_url(url, strlen(url), 0, &u), u.port);
  for (int k = 0; k < UF_MAX; k++)
    if (u.field_set & 1 << k)
      printf(" %.*s", u.field_data[k].len, url + u.field_data[k].off);
  printf("\n");
  return 0;
}
