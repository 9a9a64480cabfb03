define i32 @main() {
  %1 = alloca i32
  %2 = load i32, ptr %1
  %3 = xor i32 %2, 10
  ret i32 %3
}
