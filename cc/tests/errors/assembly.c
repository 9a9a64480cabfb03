__asm__(".globl nothing"); // error: assembly outside functions
int main(void) {
  int a = 1;
  __asm__("addl $2, %0" : "+r"(a)); // error "__asm__": assembly
  return a;
}
