#include "cJSON.h"
#include <stdio.h>
#include <stdlib.h>
int main(void) {
  cJSON *j = cJSON_Parse("{\"name\": \"x\\u00e9\\n\", \"list\": [1, 23, -456, true, null, {\"deep\": [[]]}], \"n\": 77}");
  if (!j) {
    puts("no");
    return 1;
  }
  cJSON_AddItemToObject(j, "new", cJSON_CreateString("text"));
  cJSON_AddNumberToObject(j, "number", 12345);
  char *a = cJSON_Print(j), *b = cJSON_PrintUnformatted(j);
  puts(a);
  puts(b);
  cJSON *l = cJSON_GetObjectItem(j, "LIST");
  printf("%d %d %d\n", cJSON_GetArraySize(l), cJSON_GetArrayItem(l, 2)->valueint, cJSON_IsTrue(cJSON_GetArrayItem(l, 3)));
  cJSON *c = cJSON_Duplicate(j, 1);
  printf("%d\n", cJSON_Compare(j, c, 1));
  cJSON_Delete(c);
  cJSON_Delete(j);
  free(a);
  free(b);
  return 0;
}
