declare i32 @putchar(i32)
define i32 @main() {
  br label %1
1:
  %2 = phi i32 [ 97, %0 ], [ %4, %1 ]
  %3 = call i32 @putchar(i32 %2)
  %4 = add i32 %2, 1
  %5 = icmp ule i32 %4, 101
  br i1 %5, label %1, label %6
6:
  ret i32 %2
}
