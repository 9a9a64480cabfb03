define i32 @main() {
  %1 = call i32 @getchar()
  %2 = call i32 @putchar(i32 %1)
  %3 = icmp eq i32 %1, 65
  %4 = select i1 %3, i32 0, i32 undef
  ret i32 %4
}
declare i32 @getchar()
declare i32 @putchar(i32)
