#include <stdio.h>
#include <string.h>
#include <yaml.h>
static int put(void *d, unsigned char *b, size_t n) {
  (void)d;
  fwrite(b, 1, n, stdout);
  return 1;
}
int main(void) {
  static const char text[] = "a: [1, 2, {b: c}]\n'k 2': \"x\\ty\"\nlist:\n  - &id one\n  - *id\n  - |\n    literal\n    text\n";
  yaml_parser_t p;
  yaml_event_t e;
  int done = 0;
  yaml_parser_initialize(&p);
  yaml_parser_set_input_string(&p, (const unsigned char *)text, sizeof text - 1);
  while (!done) {
    if (!yaml_parser_parse(&p, &e)) {
      printf("error %s\n", p.problem);
      return 1;
    }
    printf("%d", e.type);
    if (e.type == YAML_SCALAR_EVENT)
      printf(" '%.*s'", (int)e.data.scalar.length, e.data.scalar.value);
    printf("\n");
    done = e.type == YAML_STREAM_END_EVENT;
    yaml_event_delete(&e);
  }
  yaml_parser_delete(&p);
  yaml_emitter_t m;
  yaml_document_t d;
  yaml_parser_initialize(&p);
  yaml_parser_set_input_string(&p, (const unsigned char *)text, sizeof text - 1);
  yaml_parser_load(&p, &d);
  yaml_emitter_initialize(&m);
  yaml_emitter_set_output(&m, put, NULL);
  yaml_emitter_dump(&m, &d);
  yaml_emitter_delete(&m);
  yaml_parser_delete(&p);
  return 0;
}
