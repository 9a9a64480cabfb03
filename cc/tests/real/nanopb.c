// Messages as nanopb's generator writes them, by hand.
#include <pb.h>
#include <pb_decode.h>
#include <pb_encode.h>
#include <stdio.h>
#include <string.h>

typedef struct {
  int32_t x, y;
} Point;
#define Point_FIELDLIST(X, a)                                                                                                                        \
  X(a, STATIC, REQUIRED, INT32, x, 1)                                                                                                                \
  X(a, STATIC, REQUIRED, SINT32, y, 2)
#define Point_CALLBACK NULL
#define Point_DEFAULT NULL
PB_BIND(Point, Point, AUTO)

typedef struct {
  bool has_name;
  char name[16];
  pb_size_t points_count;
  Point points[4];
  uint64_t total;
  bool flag;
} Shape;
extern const pb_msgdesc_t Point_msg;
#define Shape_FIELDLIST(X, a)                                                                                                                        \
  X(a, STATIC, OPTIONAL, STRING, name, 1)                                                                                                            \
  X(a, STATIC, REPEATED, MESSAGE, points, 2)                                                                                                         \
  X(a, STATIC, REQUIRED, UINT64, total, 3)                                                                                                           \
  X(a, STATIC, REQUIRED, BOOL, flag, 4)
#define Shape_points_MSGTYPE Point
#define Shape_CALLBACK NULL
#define Shape_DEFAULT NULL
PB_BIND(Shape, Shape, AUTO)

int main(void) {
  Shape s = {true, "square", 3, {{1, -2}, {300, -40000}, {-5, 6}}, 1ULL << 50, true}, back;
  uint8_t buffer[200];
  pb_ostream_t out = pb_ostream_from_buffer(buffer, sizeof buffer);
  printf("%d %zu:", pb_encode(&out, &Shape_msg, &s), out.bytes_written);
  for (size_t k = 0; k < out.bytes_written; k++)
    printf(" %02x", buffer[k]);
  printf("\n");
  memset(&back, 0, sizeof back);
  pb_istream_t in = pb_istream_from_buffer(buffer, out.bytes_written);
  printf("%d %s", pb_decode(&in, &Shape_msg, &back), back.name);
  for (int k = 0; k < back.points_count; k++)
    printf(" (%d, %d)", (int)back.points[k].x, (int)back.points[k].y);
  printf(" %llu %d\n", (unsigned long long)back.total, back.flag);
  in = pb_istream_from_buffer(buffer, out.bytes_written - 3);
  printf("%d", pb_decode(&in, &Shape_msg, &back));
  printf(" %s\n", PB_GET_ERROR(&in));
  return 0;
}
