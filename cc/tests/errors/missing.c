#include <setjmp.h>
#include <stdio.h>
static jmp_buf j;
int helper(int);
extern int lost;
int main(void) {
  if (setjmp(j)) // error "setjmp": '_setjmp' is neither in the program nor in the library
    return 1;
  return helper(3) // error "helper": 'helper' is neither in the program nor in the library
         + lost;   // error "lost": 'lost' is neither in the program nor in the library
}
